/** How large, how thick and how dark ink is painted, once: for the sheet, for what is typed, and for what is printed and saved (docs/INK.md, "Painting"). In
 * units, or times as much as something. */

/** A highlighter: how many times as wide as its pen, and how much of its colour it has. */
export const MARKER = { wide: 2.4, dark: 0.45 };

/** A stroke with pressure: its width without any, and how much more it has at full pressure. */
export const PRESSED = { least: 0.4, more: 1.2 };

/** The corners of a frame and of a note. */
export const CORNERS = { frame: 64, note: 24 };

/** How much of its colour the inside of a tinted shape has, and of a note by day and by night. */
export const TINT = 0.22, NOTE = { day: 0.42, night: 0.3 };

/** The head of a line: as long at least, as many widths of the line, and how far to each side, in radians. */
export const HEAD = { least: 70, widths: 4.2, side: 0.48 };

/** Dashes and the gaps between them, in widths; a line that is longer has none, nor a shape whose corners are as far apart. */
export const DASHES = { long: 3.2, gap: 2.6, most: { line: 60_000, shape: 20_000 } };

/** Of letters in shapes the size; how many times as high a line is as they are large; letters of cells. */
export const IN_SHAPES = 2, LEADING = 1.28, OF_CELLS = 106;

/** What a note, and another shape, keep free of letters at both sides together; and a note above them, less a part of their size. */
export const FREE = { note: 110, shape: 70, above: 60, size: 0.14 };
