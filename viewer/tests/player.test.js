// The player steps until there is no cycle more, or until it is stopped.
"use strict";

const test = require("node:test");
const assert = require("node:assert/strict");
const { viewer } = require("./support.js");

test("the player steps until there is no cycle more", async () => {
    let steps = 0;
    const player = await new Promise((resolve) => {
        const step = () => (steps += 1) < 3;
        const made = new viewer.Player(step, () => steps === 3 && resolve(made));
        made.cyclesPerSecond = 1000;
        made.start();
    });
    assert.equal(player.isPlaying, false);
});

test("a step that stops the player is its last", async () => {
    const player = await new Promise((resolve) => {
        const step = () => {
            made.stop();
            setImmediate(resolve, made);
            return true;
        };
        const made = new viewer.Player(step, () => {});
        made.start();
    });
    const { isPlaying } = player;
    player.stop();
    assert.equal(isPlaying, false);
});
