// A picture in its window of the page: what is drawn in it, its scale, and where it is scrolled to.
(function (viewer) {
    "use strict";

    const { NetworkPicture, CompactPicture, Motion } = viewer;

    class Pane {
        /** `window` is the element that scrolls; the pictures in it are the detailed one and the compact one. */
        constructor(window, element, compact) {
            this.window = window;
            this.picture = new NetworkPicture(element, window);
            this.compact = new CompactPicture(compact);
            this.isCompact = false;
            this.motion = new Motion(this.picture.moves);
        }

        /**
         * Shows a view of a trace. With a duration in milliseconds its moves are shown moving.
         */
        show(view, duration) {
            this.isCompact = view.form === "compact";
            this.picture.element.toggleAttribute("hidden", this.isCompact);
            this.compact.element.toggleAttribute("hidden", !this.isCompact);
            if (this.isCompact) {
                this.motion.clear();
                this.compact.show(view);
            } else {
                this.picture.show(view);
                this.draw(duration);
            }
        }

        /** Draws what can be seen of the cycle. */
        draw(duration = 0, isSeen = this.picture.seen()) {
            if (this.isCompact) {
                return;
            }
            const { picture, motion } = this;
            const { view } = picture;
            const isSelected = (it) => view.isSelected(it, view.cycle.number - 1);
            // entries arrive only when the cycle is stepped to, not when it is drawn again
            picture.element.classList.toggle("moving", duration > 0);
            picture.drawContent(isSeen);
            motion.show(picture.layout, view.step, duration, isSelected, isSeen);
        }

        /** Draws all of the picture, for paper or for a file. */
        drawWhole() {
            const isSeen = () => true;
            if (!this.isCompact) {
                this.picture.drawUnits(isSeen);
                this.draw(0, isSeen);
            }
        }

        /** The picture that is shown. */
        get element() {
            return this.isCompact ? this.compact.element : this.picture.element;
        }

        /** Draws what has come into sight, since the window has moved or has another size. */
        noteWindow() {
            if (!this.isCompact) {
                this.picture.noteWindow();
                this.draw();
            }
        }

        clear() {
            this.motion.clear();
        }
    }

    Object.assign(viewer, { Pane });
})((globalThis.viewer ??= {}));
