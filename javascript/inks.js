// In a checkout the page has these files; the package has them in ./ink/.
export { readInk } from '../live/ui/ink.js';
export { placed, writeLink, writeShape, writeStroke, writeWords } from '../live/ui/inkwriting.js';
