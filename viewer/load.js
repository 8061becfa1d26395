// Loads the scripts of the folder src, each after those that it needs.
(function () {
    "use strict";

    /** The names of a table of scripts, each behind those that it needs. */
    function scriptOrder(table) {
        const order = new Set();
        const add = (name) => {
            table[name].forEach(add);
            order.add(name);
        };
        Object.keys(table).forEach(add);
        return [...order];
    }

    globalThis.scriptOrder = scriptOrder;
    if (globalThis.document) {
        for (const name of scriptOrder(globalThis.viewerScripts)) {
            const script = document.createElement("script");
            script.src = `src/${name}.js`;
            // scripts that are added run in the order in which they were added
            script.async = false;
            document.head.append(script);
        }
    }
})();
