// Answers calls of the program in node, for scripts/test_lab: node viewer/engine/serve.js ENGINE.wasm
//
// Each line of standard input is an object: `words`, the command line, each word in base64, and
// `folder`, whose files the program sees. Each line of standard output answers one: `status`, `out`
// and `err` in base64, and `wantedThread`; or `failed`, if the engine or its host broke down.
"use strict";

const fs = require("fs");
const readline = require("readline");
const { run } = require(process.env.HOST || "./host.js");

const module_ = new WebAssembly.Module(fs.readFileSync(process.argv[2]));
const base64 = (bytes) => Buffer.from(bytes).toString("base64");

function answer({ words, folder }) {
  const files = {};
  for (const name of fs.readdirSync(folder)) {
    files[name] = fs.readFileSync(`${folder}/${name}`);
  }
  try {
    const { status, out, err, wantedThread } = run(module_, words.map((it) => Buffer.from(it, "base64")), files);
    return { status, out: base64(out), err: base64(err), wantedThread };
  } catch (error) {
    return { failed: String(error) };
  }
}

readline.createInterface({ input: process.stdin }).on("line", (line) => {
  process.stdout.write(`${JSON.stringify(answer(JSON.parse(line)))}\n`);
});
