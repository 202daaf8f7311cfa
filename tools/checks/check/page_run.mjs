// Runs tries of the page's functions: node page_run.mjs ALL TRIES. ALL is a module with what the page's modules export.
import { createRequire } from "node:module";

const [all, tries] = process.argv.slice(2);
globalThis.page = await import(all);
createRequire(import.meta.url)(tries);
