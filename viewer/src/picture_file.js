// The picture as a file: SVG with its styles in it, or PNG.
(function (viewer) {
    "use strict";

    const SVG = "http://www.w3.org/2000/svg";
    /** What the styles of the page say of an element of a picture, with what holds without them. */
    const PROPERTIES = {
        fill: "rgb(0, 0, 0)", "fill-opacity": "1", stroke: "none", "stroke-width": "1px", "stroke-dasharray": "none",
        "stroke-opacity": "1", "stroke-linejoin": "miter", "text-anchor": "start", "paint-order": "normal", display: "inline",
        "font-family": "", "font-size": "", "font-weight": "400", "vector-effect": "none",
    };
    const DOTS_PER_UNIT = 2;
    /** Browsers draw no larger picture. */
    const MOST_DOTS = 16384;

    function styleText(element) {
        const found = getComputedStyle(element);
        const isText = element.localName === "text";
        return Object.entries(PROPERTIES)
            .filter(([name]) => isText || !/^(font|text|paint)/.test(name))
            .filter(([name, usual]) => found.getPropertyValue(name) !== usual)
            .map(([name]) => `${name}:${found.getPropertyValue(name).replaceAll('"', "'")}`)
            .join(";");
    }

    /** A copy of an element and of all in it, each with its styles and without its classes. */
    function styledCopy(element) {
        const copy = element.cloneNode(false);
        copy.removeAttribute("class");
        copy.setAttribute("style", styleText(element));
        copy.append(...[...element.childNodes].map((it) => (it instanceof Element ? styledCopy(it) : it.cloneNode())));
        return copy;
    }

    /** The picture as the text of a file, on the colour of the page, with the size of its view. */
    function pictureText(element) {
        const copy = styledCopy(element);
        const [, , width, height] = element.getAttribute("viewBox").split(" ");
        for (const name of ["id", "aria-hidden", "style", "hidden"]) {
            copy.removeAttribute(name);
        }
        copy.setAttribute("xmlns", SVG);
        copy.setAttribute("width", width);
        copy.setAttribute("height", height);
        const ground = viewer.svg("rect", { width, height, fill: getComputedStyle(element.parentElement).backgroundColor });
        copy.prepend(ground);
        return new XMLSerializer().serializeToString(copy);
    }

    /** The picture of a text of SVG as a file of PNG. */
    async function pngOf(text) {
        const image = new Image();
        image.src = URL.createObjectURL(new Blob([text], { type: "image/svg+xml" }));
        await image.decode();
        const scale = Math.min(DOTS_PER_UNIT, MOST_DOTS / Math.max(image.width, image.height));
        const canvas = document.createElement("canvas");
        canvas.width = Math.round(image.width * scale);
        canvas.height = Math.round(image.height * scale);
        canvas.getContext("2d").drawImage(image, 0, 0, canvas.width, canvas.height);
        URL.revokeObjectURL(image.src);
        return new Promise((resolve) => canvas.toBlob(resolve, "image/png"));
    }

    /** Gives a file to the person, by the way in which the browser saves files. */
    function saveFile(name, content) {
        const address = URL.createObjectURL(content);
        viewer.html("a", { href: address, download: name }).click();
        setTimeout(() => URL.revokeObjectURL(address), 60_000);
    }

    /** Saves a picture under a name, as `svg` or `png`. */
    async function savePicture(element, name, kind) {
        const text = pictureText(element);
        const content = kind === "svg" ? new Blob([text], { type: "image/svg+xml" }) : await pngOf(text);
        saveFile(`${name.replace(/[^\w.-]+/g, "_")}.${kind}`, content);
    }

    Object.assign(viewer, { pictureText, pngOf, savePicture, saveFile });
})((globalThis.viewer ??= {}));
