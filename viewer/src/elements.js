// Elements of the page and of its pictures.
(function (viewer) {
    "use strict";

    const SVG = "http://www.w3.org/2000/svg";

    /** The element of the page with an id. */
    function byId(id) {
        return document.getElementById(id);
    }

    /**
     * A field or a choice of the page with an id.
     * @returns {HTMLInputElement}
     */
    function fieldOf(id) {
        return /** @type {HTMLInputElement} */ (document.getElementById(id));
    }

    function fill(element, attributes, children) {
        for (const [name, value] of Object.entries(attributes)) {
            if (value !== null && value !== undefined && value !== false) {
                element.setAttribute(name, value === true ? "" : value);
            }
        }
        element.append(...children.filter((it) => it !== null && it !== undefined));
        return element;
    }

    /** An element of HTML, with attributes and with children, which are elements or texts. */
    function html(name, attributes = {}, ...children) {
        return fill(document.createElement(name), attributes, children);
    }

    /** An element of SVG. */
    function svg(name, attributes = {}, ...children) {
        return fill(document.createElementNS(SVG, name), attributes, children);
    }

    /** A button that looks like a word of a text. */
    function link(text, onClick, attributes = {}) {
        const button = html("button", { type: "button", class: "link", ...attributes }, text);
        button.addEventListener("click", onClick);
        return button;
    }

    Object.assign(viewer, { byId, fieldOf, html, svg, link });
})((globalThis.viewer ??= {}));
