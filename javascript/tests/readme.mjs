// node readme.mjs PACKAGE: runs the lines of README's code, and compares what stands behind `//` in a line with what the line before it is.
import { mkdtempSync, readFileSync, rmSync, writeFileSync } from "node:fs";
import { tmpdir } from "node:os";
import { join } from "node:path";
import { pathToFileURL } from "node:url";

const page = readFileSync(new URL("../README.md", import.meta.url), "utf8");
const code = [...page.matchAll(/^```js\n(.*?)^```$/gms)].map(([, lines]) => lines).join("").replace('"pcidr"', JSON.stringify(`${pathToFileURL(process.argv[2])}/pcidr.js`));
let lines = 0;
const made = code.replace(/^(.*\S) +\/\/ (.*)$/gm, (_, said, wanted) => `is(${++lines}, ${said}, ${JSON.stringify(wanted)});`);
const folder = mkdtempSync(join(tmpdir(), "readme-")), file = join(folder, "readme.mjs");
writeFileSync(file, `let wrong = 0;
const is = (number, got, wanted) => String(got) === wanted || console.log(\`README: line \${++wrong && number} with a comment is \${got}, and not \${wanted}\`);
${made}
export default () => wrong;
`);
const wrong = await import(pathToFileURL(file)).then((run) => run.default()).finally(() => rmSync(folder, { recursive: true }));
console.log(`${lines} lines of README with an answer, ${wrong} wrong`);
process.exit(wrong || lines < 20 ? 1 : 0);
