/** What goes between a board and the member behind it: the types of all modules. Nothing here runs. */

/** @typedef {{ op: 'text', x: number, y: number, text: string }} TextShape */
/** @typedef {{ op: 'line' | 'frame', x0: number, y0: number, x1: number, y1: number, glyph: string }} LineShape */
/** What an operation draws.
 * @typedef {TextShape | LineShape} Shape */
/** A shape that is held: who drew it, under which number, and when, in microseconds of the day.
 * @typedef {Shape & { source: number, seq: number, time: string }} Drawing */

/** @typedef {{ lose: number, delay: number, twice: number, mix: boolean }} Worse */
/** Which member this is, and what it says of itself.
 * @typedef {{ me: number, mode: string, notice: string, ready: boolean, teach: boolean, cells?: number, twin?: boolean, worsen?: Worse,
 *   proof?: Proof, clears?: boolean, othersClear?: boolean, keeper?: number }} Hello   keeper: the member that keeps the board and has no window; clears: whether this member's windows may clear pages; othersClear: of the
 *   window of who keeps the board, whether those of others may
 * @typedef {{ proved: boolean, text: string, progress: string, crates: number, many: number }} Proof   of the program that the member runs by */
/** A drawing that is hidden: who erased it, under which number and when, and the operation of the number before, if that was within a second.
 * @typedef {Drawing & { erased?: [number, number, string, string | null] | null }} Erased */
/** The page in view: what it shows in the order of painting, what was deleted, and its rows as the host painted them.
 * @typedef {{ page: string, drawops: Drawing[], hidden: Erased[], rows: string[] }} Board */
/** What changed of it: the names of what goes, hidden or shown; what is shown now, each with its place, in the order of putting in; what is
 * hidden now; and the rows that are others.
 * @typedef {{ page: string, names: [number, number][], added: [number, Drawing][], hidden: Erased[], rows: Record<number, string>,
 *   height: number }} Change */
/** A page of the session, in the order in which all number them: how many drawops it has, and when something was drawn there or restored last.
 * @typedef {{ page: string, drawn: number, last?: string }} Leaf
 * @typedef {{ page: string, pages: Leaf[] }} Pages */
/** What another holds of the page in view: what we do; not yet, since something is under way; or as many drawings as we, and others.
 * @typedef {'same' | 'not-yet' | 'another'} Holds */
/** Another member: the delay to it in milliseconds, how many seconds ago it was heard, and what it holds, if it has told that.
 * @typedef {{ member: number, delay?: number | null, heard?: number | null, page?: string | null, holds?: Holds | null }} Other */
/** @typedef {{ members: Other[] }} Members */
/** @typedef {{ phrase: string, missing: number, taken: number, cells: number, warnings: string[], counts: Record<string, number> }} Health */
/** A datagram that went by. `held` says whether the drawop that a request names was held when it came.
 * @typedef {{ id: number, at: number, way: 'in' | 'out', kind: string, words: string, member: number | null, name: string | null,
 *   answers: number | null, lost: boolean, twice: boolean, refused: string | null, by: number | null, held?: boolean }} Entry */
/** @typedef {{ entries: Entry[] }} Wire */

/** What a page shows otherwise: which are taken off, and which are then put in, each at its place; until when that is said, and whether it is all.
 * @typedef {{ since: string, whole: boolean, names: [number, number][], added: [number, Drawing][] }} PageNews */

/** A member that points at a cell, and what it has begun, in words.
 * @typedef {{ member: number, page: string, cell: [number, number] | null, begun: string[] }} Pointed */
/** Where a replay is, in milliseconds, and how many drawops are missing there.
 * @typedef {{ at: number, last: number, speed: number, stopped: boolean, missing: number }} Film */
/** Who drew what when in a replay: the millisecond, the source, the operation, and whether it was lost at first.
 * @typedef {[number, number, string, boolean]} Scene */

/** What a member says to something that it was asked: a drawing's name, the address of a board, or why not.
 * @typedef {{ ok: boolean, fault?: string, status?: number, source?: number, seq?: number, page?: string, address?: string }} Reply */

/** Whether the member answers, does not, or has another address now.
 * @typedef {'open' | 'lost' | 'gone'} Link */

/** What a board needs of the member behind it, over HTTP or in a worker of the page. `subscribe` is called once; from then on
 * `hear` is given each state as it changes, by its name: `hello`, `board`, `pages`, `members`, `health` and `wire`, with the
 * types above; `change` in the place of `board` where only a part of the page in view is another; `link` with a `Link`; and `unsent`, how many
 * drawings wait for a member that does not answer. What stands in brackets is not asked of every member.
 * @typedef {object} Member
 * @property {(hear: (name: string, news: any) => void) => void} subscribe
 * @property {(page: string, operation: string) => Promise<Reply>} draw   one drawing line, such as `line 0 0 4 4 *`
 * @property {(page: string | null) => Promise<Reply>} choose   the page to be in view; null for a new one
 * @property {() => Promise<Reply>} [renumber]   takes a new number, where another member has the same
 * @property {(worse: Worse) => Promise<Reply>} worsen   how the network is to be made worse, where `hello.teach` allows it
 * @property {(page: string) => Promise<Board | null>} [read]   what a page shows, which need not be in view: for names, titles and all pages
 * @property {(page: string, since: string) => Promise<PageNews | null>} [news]   what of a page is new since that was asked last; of '' all of it
 * @property {() => Promise<string | null>} [record]   the record of the session, as a text
 * @property {(page: string, cell: [number, number] | null, begun: string[]) => Promise<Reply>} [point]   tells others where one points, and
 *   what is begun; they hear it as the state `presence`, which has `others`
 * @property {(change: { at?: number, speed?: number, stopped?: boolean }) => Promise<Reply>} [film]   jumps, goes faster, stops or goes on,
 *   where the states `scenes` and `film` are told
 * @property {(others: boolean) => Promise<Reply>} [clearing]   whether windows of others may clear pages, where `hello.othersClear` is told
 * @property {(session: string) => Promise<Reply>} [next]   begins or joins the session of this name, and gives the address of its page */

export {};
