// The address of the page carries the cycle and what is shown.
"use strict";

const test = require("node:test");
const assert = require("node:assert/strict");
const { viewer, example, textOf, historyOf } = require("./support.js");

test("an address that is written is read again", () => {
    const history = historyOf(textOf(example("two_level_tree"), "expected"));
    const request = history.requestsOfPe[1][0];
    const hash = viewer.writeAddress({ trace: "two_level_tree/expected", cycle: 3, request, form: "folded" });
    assert.deepEqual(viewer.readAddress(hash), { beside: undefined, together: undefined, trace: "two_level_tree/expected", cycle: 3, request: [1, 0], act: undefined, form: "folded" });
    const two = viewer.writeAddress({ trace: "a/b", beside: "c/d", together: "acts", cycle: 3 });
    assert.equal(two, "#trace=a%2Fb&beside=c%2Fd&together=acts&cycle=3");
    assert.deepEqual([viewer.readAddress(two).beside, viewer.readAddress(two).together], ["c/d", "acts"]);
    const act = viewer.writeAddress({ cycle: 6, act: history.acts[0] });
    assert.equal(act, "#cycle=6&act=6.0");
    assert.deepEqual(viewer.readAddress(act).act, [6, 0]);
});

test("an address that nobody wrote leads nowhere", () => {
    for (const hash of ["", "#", "#cycle=", "#cycle=x", "#cycle=-1", "#request=1", "#act=6"]) {
        const { cycle, request, act } = viewer.readAddress(hash);
        assert.deepEqual([cycle, request, act], [undefined, undefined, undefined], hash);
    }
});
