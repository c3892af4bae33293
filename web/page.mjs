// The page in one file: the views over the program in a worker.
import { LocalSource } from "./local.mjs";
import { begin } from "../bindings/python/l4/views/main.mjs";

// tests reach the source here
globalThis.source = new LocalSource();
begin(globalThis.source);
