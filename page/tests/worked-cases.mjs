// The worked cases of crates/worked_cases; docs/CASES.md has their form.
import fs from "node:fs";

// One more line of a case. The lines of a text belong to the output once the status is told, and else to the last file.
function addLine(it, line) {
  const [kind] = line.split(" ", 1);
  const rest = line.slice(kind.length + 1);
  if (line[0] === "|" || line[0] === "\\") {
    const text = line.slice(1) + (line[0] === "|" ? "\n" : "");
    if (it.status === null) it.files[it.last] += text;
    else it.output += text;
  } else if (kind === "word") {
    it.words.push(rest);
  } else if (kind === "file") {
    it.last = rest;
    it.files[rest] = "";
  } else if (kind === "status") {
    it.status = Number(rest);
  }
}

// The cases of a suite that replay three files to the end.
export function replaysOf(suite) {
  const file = new URL(`../../crates/worked_cases/data/${suite}`, import.meta.url);
  const cases = [];
  for (const line of fs.readFileSync(file, "latin1").split("\n")) {
    if (line.startsWith("case ")) cases.push({ name: line.slice(5), words: [], files: {}, last: "", status: null, output: "" });
    else if (line !== "") addLine(cases[cases.length - 1], line);
  }
  return cases.filter((it) => it.words[0] === "replay" && it.words.length === 4 && it.status === 0);
}

export const stepsOf = (it) => Number(/^steps ([0-9]+)/m.exec(it.output)[1]);
