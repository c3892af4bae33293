// What the page's worker runs.
import { listen } from "./answers.mjs";

listen(globalThis);
