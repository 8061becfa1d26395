// The scripts as modules for TypeScript's compiler. A page that is opened from the disk can't use
// modules, and the compiler knows no other way to give the names of one script to others.
"use strict";

const fs = require("node:fs");
const path = require("node:path");

/**
 * A script as a module: what it adds to `viewer` is what it exports, and what it finds there is
 * what the scripts that it needs export. Its lines keep their numbers.
 */
function moduleOf(text, needs) {
    const imports = needs.map((it) => `...require("./${it}.js")`).join(", ");
    const names = [...text.matchAll(/Object\.assign\(viewer, \{([^}]*)\}\);/g)].map((it) => it[1].trim());
    return text
        .replace("(function (viewer) {", `const viewer = { ${imports} };`)
        .replace('"use strict";', "")
        .replace(/Object\.assign\(viewer, \{[^}]*\}\);/g, "")
        .replace("})((globalThis.viewer ??= {}));", `module.exports = { ${names.join(", ")} };`);
}

/** Writes the scripts of a table as modules into a folder. */
function writeModules(folder, sources, table) {
    for (const [name, needs] of Object.entries(table)) {
        const text = fs.readFileSync(path.join(sources, `${name}.js`), "utf8");
        fs.writeFileSync(path.join(folder, `${name}.js`), moduleOf(text, needs));
    }
}

module.exports = { writeModules };
