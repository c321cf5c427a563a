// what ink.js takes of the page's files
type Point = { x: number, y: number, up?: boolean, pressure?: number };
type Look = { colour: number, width: number };
export type Ink = { kind: string, colour: number, width: number, flag: number, goesOn: boolean, points: Point[], letters: string };
export function readInk(text: string): Ink | null;
export function placed(text: string, n: number): { x: number, y: number, text: string };
export function writeStroke(look: Look & { kind: string, scale: number }, points: Point[]): { text: string }[];
export function writeShape(kind: string, look: Look, flag: number, points: Point[], letters: string): string[];
export function writeWords(look: Look, font: number, at: Point, letters: string): string[];
export function writeLink(look: Look, at: Point, address: string): string | null;
