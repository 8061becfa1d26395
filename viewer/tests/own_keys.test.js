// Which keys an element uses itself while it has the focus, and which are the page's.
"use strict";

const test = require("node:test");
const assert = require("node:assert/strict");
const { viewer } = require("./support.js");

/** The keys that the page uses. */
const KEYS = ["ArrowRight", "ArrowLeft", " ", "Home", "End", "a", "C", "e", "+", "-", "0", "f", "o", "t", "Escape"];

function input(type) {
    return { tagName: "INPUT", type };
}

function keysOf(element) {
    return KEYS.filter((it) => viewer.isOwnKey(element, it));
}

test("the slider has the keys that move it, and leaves the page its others", () => {
    assert.deepEqual(keysOf(input("range")), ["ArrowRight", "ArrowLeft", "Home", "End"]);
    assert.ok(["ArrowUp", "ArrowDown", "PageUp", "PageDown"].every((it) => viewer.isOwnKey(input("range"), it)));
});

test("a field for a number and a choice leave the page only Escape", () => {
    for (const element of [input("number"), { tagName: "SELECT", type: "select-one" }]) {
        assert.deepEqual(keysOf(element), KEYS.filter((it) => it !== "Escape"));
    }
});

test("what can be pressed has space and enter", () => {
    const button = { tagName: "BUTTON", type: "button" };
    for (const element of [button, { tagName: "SUMMARY" }, { tagName: "LABEL" }, input("checkbox"), input("file")]) {
        assert.deepEqual(keysOf(element), [" "]);
        assert.ok(viewer.isOwnKey(element, "Enter"));
    }
});

test("all other elements leave the page all its keys", () => {
    for (const tagName of ["BODY", "DIV", "PRE"]) {
        assert.deepEqual(keysOf({ tagName }), []);
    }
});
