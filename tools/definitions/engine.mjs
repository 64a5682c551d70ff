// A list of questions as JSON in, a list of answers out.

import { readFileSync } from "node:fs";
import { answer } from "./answers.mjs";

process.stdout.write(JSON.stringify(JSON.parse(readFileSync(0, "utf8")).map(answer)));
