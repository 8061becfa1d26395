// The frames of PEs, switches and modules, and of the lists in them.
(function (viewer) {
    "use strict";

    const { svg, KINDS, PNI, INP, OUT, kindOf, placeText } = viewer;

    function unitFrame(box, name, kind) {
        const { x, y, w, h } = box;
        const rect = svg("rect", { x, y, width: w, height: h, rx: 6 });
        return svg("g", { class: `unit ${kind}` }, rect, svg("text", { x: x + 6, y: y + 11 }, name));
    }

    /** The frame of a list and its name; in a PE or a module the number goes without saying. */
    function placeFrame(box, place) {
        const kind = kindOf(place);
        const isRegister = kind === INP || kind === OUT;
        const { x, y, w, h } = box;
        const name = isRegister || kind === PNI ? KINDS[kind] : placeText(place);
        return [
            svg("rect", { class: `place ${KINDS[kind]}`, x, y, width: w, height: h, rx: 3 }),
            svg("text", { class: "name", x: x + 4, y: y + (isRegister ? 11 : 8.5) }, name),
        ];
    }

    function columnTitles(layout) {
        const title = (x, text) => svg("text", { class: "column", x, y: 16 }, text);
        const stages = [...Array(layout.net.stages).keys()];
        return [
            title(14, "PEs"),
            ...stages.map((it) => title(layout.stageX(it), `stage ${it}`)),
            title(layout.moduleX, "modules"),
        ];
    }

    /** The frames of a layout that can be seen. */
    function framesOf(layout, isSeen) {
        const frames = columnTitles(layout);
        const add = (box, name, kind) => isSeen(box) && frames.push(unitFrame(box, name, kind));
        layout.switches.forEach((box) => add(box, `switch ${box.number}`, "switch"));
        layout.pes.forEach((box, pe) => add(box, `PE ${pe}`, "pe"));
        layout.modules.forEach((box, module) => add(box, `module ${module}`, "module"));
        layout.boxes.forEach((box, place) => isSeen(box) && frames.push(...placeFrame(box, place)));
        return frames;
    }

    Object.assign(viewer, { framesOf });
})((globalThis.viewer ??= {}));
