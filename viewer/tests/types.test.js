// The types that the scripts' comments name, checked by TypeScript's compiler.
"use strict";

const test = require("node:test");
const assert = require("node:assert/strict");
const fs = require("node:fs");
const os = require("node:os");
const path = require("node:path");
const { spawnSync } = require("node:child_process");
const { FOLDER, viewerScripts } = require("./support.js");
const { writeModules } = require("./modules.js");

const OPTIONS = ["--allowJs", "--checkJs", "--noEmit", "--target", "es2022", "--lib", "es2022,dom,dom.iterable", "--module", "commonjs"];

/** A script with two faults: a call that no class has, and a name of a script that isn't needed. */
const PLANTED = `const viewer = { ...require("./net.js") };
new viewer.Net(3).shufle(1);
viewer.requestText({});
`;

test("the scripts have the types that their comments name, and planted faults are found", () => {
    const folder = fs.mkdtempSync(path.join(os.tmpdir(), "viewer-types-"));
    try {
        writeModules(folder, path.join(FOLDER, "src"), viewerScripts);
        fs.copyFileSync(path.join(FOLDER, "types.d.ts"), path.join(folder, "types.d.ts"));
        fs.writeFileSync(path.join(folder, "planted.js"), PLANTED);
        const files = fs.readdirSync(folder);
        const said = spawnSync("tsc", [...OPTIONS, ...files], { cwd: folder, encoding: "utf8" }).stdout;
        const found = said.split("\n").filter((it) => /^\S/.test(it));
        assert.match(found[0], /^planted\.js\(2,\d+\): .*'shufle' does not exist on type 'Net'/);
        assert.match(found[1], /^planted\.js\(3,\d+\): .*'requestText' does not exist/);
        assert.equal(found.length, 2, said);
    } finally {
        fs.rmSync(folder, { recursive: true });
    }
});
