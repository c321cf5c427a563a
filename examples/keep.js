#!/usr/bin/env node
// The smallest driver of a self-managing host, for Node: as keep.py, with the same arguments and the same input.
const [program, me, port, ...others] = process.argv.slice(2);
const { createInterface } = require("readline");
const host = require("child_process").spawn(program, ["host"], { stdio: ["pipe", "pipe", "inherit"] });
const network = require("dgram").createSocket("udp4").bind(Number(port), "127.0.0.1");
const began = process.hrtime.bigint();
let timer;

const now = () => Number((process.hrtime.bigint() - began) / 1000n);
const tell = (line) => host.stdin.write(line + "\n");
createInterface({ input: host.stdout }).on("line", (said) => {
    const [word, rest] = said.split(" ");
    if (word === "send") for (const other of others) network.send(Buffer.from(rest, "hex"), Number(other), "127.0.0.1");
    if (word !== "ok" || rest === "never") return;
    clearTimeout(timer);
    timer = setTimeout(() => tell(`tick ${now()}`), Math.max(0, Number(rest) - now()) / 1000);
});
network.on("message", (datagram) => tell(`came ${now()} ${datagram.toString("hex")}`));
createInterface({ input: process.stdin }).on("line", (drawing) => tell(`add ${now()} ${Date.now() * 1000} 1/1 ${drawing}`)).on("close", process.exit);
tell(`board ${me} 65535 1 ${Math.floor(Math.random() * 2 ** 53)}`);
tell("keep 4000 0");
