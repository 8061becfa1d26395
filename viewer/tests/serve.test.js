// The playground's server: what it runs and refuses, who reaches it, and that it reads nothing else.
"use strict";

const test = require("node:test");
const assert = require("node:assert/strict");
const fs = require("node:fs");
const http = require("node:http");
const net = require("node:net");
const os = require("node:os");
const path = require("node:path");
const { spawn, spawnSync } = require("node:child_process");
const { FOLDER, PROGRAM, example, textOf, hasProgram } = require("./support.js");

const SETTINGS = textOf(example("combined_pair"), "conf.toml");
const SOURCE = textOf(example("combined_pair"), "prog.s");
/** A program that never ends, and one whose trace is long. */
const ENDLESS = "again:\nli r1 0\nfaa r2 r1 r1\njmp again\n";

/** Starts the server, and answers its address and a way to end it. */
function serve(words = [], environment = {}) {
    const room = fs.mkdtempSync(path.join(os.tmpdir(), "viewer-serve-"));
    const env = { ...process.env, ULTRA: PROGRAM, TMPDIR: room, ...environment };
    const server = spawn(path.join(FOLDER, "serve"), words, { env, stdio: ["ignore", "pipe", "inherit"] });
    const end = async () => {
        const ended = new Promise((resolve) => server.once("exit", resolve));
        server.kill();
        await ended;
        const left = fs.readdirSync(room);
        fs.rmSync(room, { recursive: true });
        return left;
    };
    return new Promise((resolve) => {
        server.stdout.once("data", (said) => resolve({ address: new URL(/http:\S+/.exec(`${said}`)[0]), end }));
    });
}

/** Sends a request: the status, the headers and the text of the answer. */
function ask(address, { method = "GET", target = address.pathname, headers = {}, body } = {}) {
    return new Promise((resolve, reject) => {
        const options = { host: address.hostname, port: address.port, method, path: target, headers };
        const request = http.request(options, (answer) => {
            let text = "";
            answer.setEncoding("utf8").on("data", (it) => (text += it));
            answer.on("end", () => resolve({ status: answer.statusCode, headers: answer.headers, text }));
        });
        request.on("error", reject);
        request.end(body);
    });
}

async function run(address, settings, program) {
    const body = JSON.stringify({ settings, program });
    const answer = await ask(address, { method: "POST", target: `${address.pathname}run`, body });
    assert.equal(answer.status, 200, answer.text);
    return JSON.parse(answer.text);
}

/** A server with short limits, which all tests use; each leaves nothing behind. */
let server;
test.before(async () => {
    server = await serve(["--seconds", "2", "--cycles", "60000", "--megabytes", "2"]);
});
test.after(async () => assert.deepEqual(await server.end(), []));

test("a program that is run gives the trace that the program writes", async () => {
    const found = await run(server.address, SETTINGS, SOURCE);
    assert.equal(found.trace, textOf(example("combined_pair"), "expected"));
    const hasSteps = spawnSync(PROGRAM, ["steps", "--help"]).status === 0;
    assert.equal(found.steps !== null, hasSteps);
});

test("a fault is named with its file and its line", async () => {
    for (const [settings, program, fault] of [
        [SETTINGS, "li r1 0\nfoo r1\n", { message: "unknown word", file: "program", line: 2 }],
        [SETTINGS, "a:\nhalt\na:\n", { message: "double label", file: "program", line: 3 }],
        ["# none\nstages = 7\n", SOURCE, { message: "bad stages", file: "settings", line: 2 }],
        ["stages = 1\nstagse = 2\n", SOURCE, { message: "unknown key", file: "settings", line: null }],
        ["stages = \n", SOURCE, { message: "not toml", file: "settings", line: null }],
    ]) {
        assert.deepEqual((await run(server.address, settings, program)).fault, fault);
    }
});

test("a run ends at its limits on cycles, on bytes and on time", async () => {
    const { fault: cycles } = await run(server.address, "stages = 1\ncycles = 60001\n", SOURCE);
    assert.deepEqual(cycles, { message: "a run here has at most 60000 cycles", file: "settings", line: 2 });
    const { fault: bytes } = await run(server.address, "stages = 6\ncycles = 60000\n", ENDLESS);
    assert.equal(bytes.message, "the run wrote more than 2 megabytes");
    const folder = fs.mkdtempSync(path.join(os.tmpdir(), "viewer-slow-"));
    const slow = path.join(folder, "ultra");
    fs.writeFileSync(slow, "#!/bin/sh\nexec /bin/sleep 60\n", { mode: 0o755 });
    const other = await serve(["--seconds", "1"], { ULTRA: path.join(folder, "quick"), ...slowProgram(folder) });
    const { fault: time } = await run(other.address, SETTINGS, SOURCE);
    assert.equal(time.message, "the run took more than 1 seconds");
    assert.deepEqual(await other.end(), []);
    fs.rmSync(folder, { recursive: true });
});

/** A program that answers for its help at once, and never ends when it runs. */
function slowProgram(folder) {
    const program = path.join(folder, "quick");
    fs.writeFileSync(program, '#!/bin/sh\n[ "$2" = --help ] && exit 2\nexec /bin/sleep 60\n', { mode: 0o755 });
    return { ULTRA: program };
}

test("no request without the token is served", async () => {
    const { address } = server;
    const token = address.pathname.split("/")[1];
    assert.ok(token.length >= 32);
    for (const target of [
        "/", "/index.html", "/run", `/${token}`, `/${token.slice(1)}/`, `/${token}x/`, `/${token.toLowerCase()}x/run`, "//", `/x/${token}/`,
        `/?${token}/`, "/é/",
    ]) {
        for (const method of ["GET", "POST"]) {
            const { status, text } = await ask(address, { method, target: encodeURI(target), body: method === "POST" ? "{}" : undefined });
            assert.deepEqual([status, text], [404, "{}"], `${method} ${target}`);
        }
    }
    for (const method of ["PUT", "DELETE", "OPTIONS", "HEAD"]) {
        assert.equal((await ask(address, { method })).status, 501, method);
    }
});

test("no path outside the folder is read", async () => {
    const { address } = server;
    for (const behind of ["../../etc/passwd", "..%2f..%2fetc/passwd", "/etc/passwd", "src/app.js", "serve", "index.html", "page", "run/", "%00"]) {
        const { status } = await ask(address, { target: address.pathname + behind });
        assert.equal(status, 404, behind);
    }
});

test("a request that names another host, or comes from another page, isn't served", async () => {
    const { address } = server;
    assert.equal((await ask(address)).status, 200);
    for (const headers of [{ Host: "example.org" }, { Host: `example.org:${address.port}` }, { Origin: "http://example.org" }, { Origin: "null" }]) {
        assert.equal((await ask(address, { headers })).status, 404, JSON.stringify(headers));
    }
});

test("it listens at 127.0.0.1 alone", async () => {
    const others = Object.values(os.networkInterfaces()).flat().filter((it) => it.family === "IPv4" && !it.internal);
    for (const host of ["127.0.0.2", ...others.map((it) => it.address)]) {
        const reached = await new Promise((resolve) => {
            const socket = net.connect({ host, port: Number(server.address.port) });
            socket.setTimeout(1000, () => socket.destroy(new Error("late")));
            socket.once("connect", () => socket.end(() => resolve(true))).once("error", () => resolve(false));
        });
        assert.equal(reached, false, host);
    }
});

test("what isn't a request for a run is refused", async () => {
    const { address } = server;
    const send = async (body, headers = {}) => (await ask(address, { method: "POST", target: `${address.pathname}run`, body, headers })).status;
    for (const body of ["", "[]", "{", '{"settings": 1, "program": ""}', '{"settings": ""}', "[".repeat(50_000)]) {
        assert.equal(await send(body), 400, body.slice(0, 40));
    }
    assert.equal(await send("", { "Content-Length": "9999999" }), 413);
    assert.equal((await run(server.address, SETTINGS, SOURCE)).trace.slice(0, 13), "ultra trace 2");
});

test("the page has its scripts in it, the examples, and names no other host", async () => {
    const { text, headers } = await ask(server.address);
    assert.match(headers["content-security-policy"], /default-src 'none'/);
    assert.match(text, /"first": "combined_pair"/);
    assert.doesNotMatch(text, /<script src|<link rel="stylesheet"/);
});

test("the page is shared as a file with its texts, which asks nobody for anything", async () => {
    const texts = [["run", textOf(example("combined_pair"), "expected")]];
    const { address } = server;
    const send = (body) => ask(address, { method: "POST", target: `${address.pathname}page`, body: JSON.stringify(body) });
    const { status, text } = await send({ texts });
    assert.equal(status, 200);
    assert.match(text, /data-trace="run">"ultra trace 2/);
    assert.doesNotMatch(text, /fetch\(|playground-data">|http:\/\/127/);
    for (const body of [{}, { texts: [["run"]] }, { texts: [["run", 1]] }, { texts: "run" }]) {
        assert.equal((await send(body)).status, 400);
    }
});

test("a file that isn't the program is said to be missing", () => {
    const ran = spawnSync(path.join(FOLDER, "serve"), { env: { ...process.env, ULTRA: "/nowhere/ultra" }, encoding: "utf8" });
    assert.equal(ran.status, 3);
    assert.match(ran.stderr, /there is no program \/nowhere\/ultra/);
    assert.ok(hasProgram());
});
