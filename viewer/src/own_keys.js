// Which keys an element uses itself while it has the focus. All others do what they do anywhere on
// the page.
(function (viewer) {
    "use strict";

    const KEYS_OF_SLIDER = ["ArrowLeft", "ArrowRight", "ArrowUp", "ArrowDown", "PageUp", "PageDown", "Home", "End"];
    const KEYS_OF_BUTTON = [" ", "Enter"];

    const KEYS_ACROSS = ["ArrowLeft", "ArrowRight"];
    const KEYS_DOWN = ["ArrowUp", "ArrowDown", "PageUp", "PageDown", "Home", "End"];

    /**
     * Whether a key scrolls an element which was reached by keyboard: one that can be scrolled that
     * way. By a click it gets the focus, too, but then the keys go from cycle to cycle.
     */
    function isScrolledBy(element, key) {
        if (element.tabIndex !== 0 || !element.matches?.(":focus-visible")) {
            return false;
        }
        const isAcross = element.scrollWidth > element.clientWidth && KEYS_ACROSS.includes(key);
        return isAcross || (element.scrollHeight > element.clientHeight && KEYS_DOWN.includes(key));
    }

    /** Whether a key is a single character, which a person who speaks to the browser may not want. */
    function isLetterKey(key) {
        return key.length === 1 && key !== " ";
    }

    /** The sort of an element: of an input its type, of another its name. */
    function sortOf({ tagName, type }) {
        return tagName === "INPUT" ? type : tagName.toLowerCase();
    }

    /** Whether a key is the element's own. Escape never is: it closes the story from anywhere. */
    function isOwnKey(element, key) {
        switch (sortOf(element)) {
            case "range":
                return KEYS_OF_SLIDER.includes(key);
            case "number":
            case "select":
            case "textarea":
                return key !== "Escape";
            case "button":
            case "summary":
            case "label":
            case "checkbox":
            case "file":
                return KEYS_OF_BUTTON.includes(key);
            default:
                return isScrolledBy(element, key);
        }
    }

    Object.assign(viewer, { isOwnKey, isLetterKey });
})((globalThis.viewer ??= {}));
