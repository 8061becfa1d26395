// Which part of a picture can be seen: its scale, and where it is scrolled to. Each call takes the
// pane of the picture.
(function (viewer) {
    "use strict";

    const LEAST_SCALE = 0.8;
    const MOST_SCALE = 1.35;

    /** Draws the picture at another scale, with the same point of it in the middle. */
    function setScale(pane, scale) {
        if (pane.isCompact) {
            return;
        }
        const { window, picture } = pane;
        const part = scale / picture.scale;
        const x = (window.scrollLeft + window.clientWidth / 2) * part - window.clientWidth / 2;
        const y = (window.scrollTop + window.clientHeight / 2) * part - window.clientHeight / 2;
        picture.scale = scale;
        picture.resize();
        window.scrollTo(x, y);
        picture.noteWindow();
        pane.draw();
    }

    function wholeScale(pane) {
        const { window, picture } = pane;
        const { width, height } = picture.layout;
        return Math.min((window.clientWidth - 4) / width, (window.clientHeight - 4) / height);
    }

    /**
     * The first scale: the whole picture where its text can be read, else as much of it as there is
     * room for.
     */
    function chooseScale(pane) {
        if (pane.isCompact) {
            return;
        }
        setScale(pane, Math.max(LEAST_SCALE, Math.min(MOST_SCALE, wholeScale(pane))));
    }

    /** Whether a message or a combination is of the sort that is looked for. */
    function isMeant(message, sort, number) {
        return sort === "cell" ? message.cell === number : sort === "pe" && message.pe === number;
    }

    /** The boxes in which an event of a sort happened in the cycle that is shown. */
    function boxesOfEvent(pane, sort, number) {
        const { layout, view } = pane.picture;
        const ofSort = (it) => isMeant(it, sort, number);
        const acts = view.cycle.acts.filter((it) => sort === "act" || ofSort(it.request));
        const meetings = view.step?.combinations ?? [];
        const meant = meetings.filter((it) => sort === "combination" || ofSort(it.old) || ofSort(it.later));
        const issues = (view.step?.issues ?? []).filter((it) => ofSort(it.request));
        const ends = [...view.cycle.got, ...view.cycle.faults].filter(ofSort);
        return [
            ...acts.map((it) => layout.modules.get(it.module)),
            ...meant.map((it) => layout.boxes.get(it.queue)),
            ...issues.map((it) => layout.boxes.get(it.place)),
            ...ends.map((it) => layout.pes.get(it.pe)),
        ].filter(Boolean);
    }

    /**
     * The boxes to which messages moved in the cycle that is shown, and in which something
     * happened.
     */
    function boxesOfMoves(pane) {
        const { layout, view } = pane.picture;
        const target = (it) => (it.to === null ? layout.pes.get(it.message.pe) : layout.boxes.get(it.to));
        return [
            ...view.cycle.acts.map((it) => layout.modules.get(it.module)),
            ...(view.step?.moves ?? []).map(target),
            ...(view.step?.issues ?? []).map((it) => layout.boxes.get(it.place)),
        ].filter(Boolean);
    }

    /** Scrolls to the first of the boxes, unless one of them can be seen. */
    function scrollToOne(pane, boxes) {
        const { part, scale } = pane.picture;
        const [x, y, w, h] = [part.x, part.y, part.w, part.h].map((it) => it / scale);
        const isWithin = (least, size, start, length) => least >= start && least + size <= start + length;
        const isInside = (it) => isWithin(it.x, it.w, x, w) && isWithin(it.y, it.h, y, h);
        if (boxes.length > 0 && !boxes.some(isInside)) {
            const [box] = boxes;
            pane.window.scrollTo((box.x + box.w / 2 - w / 2) * scale, (box.y + box.h / 2 - h / 2) * scale);
        }
    }

    /** Scrolls to an event of the cycle that is shown, unless one can be seen. */
    function revealEvent(pane, sort, number) {
        if (!pane.isCompact) {
            scrollToOne(pane, boxesOfEvent(pane, sort, number));
        }
    }

    /** Scrolls to the act or the request that is shown, where it is in this cycle. */
    function revealStory(pane) {
        if (pane.isCompact) {
            return;
        }
        const { layout, view } = pane.picture;
        const { request, selectedAct: act } = view;
        const where = request && viewer.whereIs(view.trace, request, view.cycle.number);
        const box = act ? layout.modules.get(act.module) : where && layout.boxes.get(where.place);
        scrollToOne(pane, box ? [box] : []);
    }

    /** Scrolls to where something moved in the cycle that is shown, unless that can be seen. */
    function revealMoves(pane) {
        if (!pane.isCompact) {
            scrollToOne(pane, boxesOfMoves(pane));
        }
    }

    /** Scrolls to a list, unless it can be seen. */
    function revealPlace(pane, place) {
        const box = pane.picture.layout.boxes.get(place);
        scrollToOne(pane, box ? [box] : []);
    }

    Object.assign(viewer, { setScale, wholeScale, chooseScale, revealEvent, revealStory, revealMoves, revealPlace });
})((globalThis.viewer ??= {}));
