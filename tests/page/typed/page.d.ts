// The types of the page's values, for its scripts' JSDoc; tsc checks the scripts by them (tests/page/test_types.py). Numbers are those of the state
// lines: whole; 0.001 NM, 0.1 kt, ft, ft/min, degrees, s.

/** What a script puts into it for the others. */
declare var daa: Daa;
interface Daa {
  must: <T>(value: T | null | undefined) => T; element: (id: string) => PageElement; ui: Ui; KINDS: Kind[]; SIDES: Record<Kind, string[]>;
  lacksOf: (moment: { comments?: string[] }) => Lack[]; ranked: (model: Model, chosen: string) => Ranked[]; [other: string]: any;
}

/** An element of index.html, whose kind its name tells, and which its listeners are told of. */
interface PageElement extends HTMLElement { addEventListener(type: string, act: (event: any) => void, how?: any): void; [other: string]: any; }

/** The global object of the page, of a worker or of Node, which has it. */
interface Root { daa: Daa; }

/** The numbers of a configuration, under the names that core.js has for the engine's struct. */
type Numbers = Record<string, bigint>;

/** What is wrong with a document of TOML: the code, the sentence, and the line where there is one. */
interface TomlFault { code: number; why: string; line: number | undefined; }
type AddFault = (code: number, why: string, line: number | undefined) => void;

type Kind = "track" | "gs" | "vs" | "alt";
type TapeKind = "gs" | "vs" | "alt";
type Point = { x: number; y: number };
type Pair = [number, number];

/** The ownship, as a line `own` has it. */
interface Own { x: number; y: number; alt: number; trk: number; gs: number; vs: number; }

/** An aircraft, as a line `traffic` has it. */
interface Aircraft { id: string; x: number; y: number; alt: number; vx: number; vy: number; vs: number; age: number; }

type State = Own | Aircraft;
type OwnField = keyof Own;
type TrafficField = Exclude<keyof Aircraft, "id">;

/** A moment, with its comments, and why there is none between it and the one before. */
interface Moment { time: number; own: Own; traffic: Aircraft[]; comments: string[]; silence?: string; }

/** Moments packed into whole numbers. */
interface Block {
  times: Uint32Array; starts: Uint32Array; numbers: Int32Array; names: string[]; comments: string[][]; faults: string[]; silences: string[];
}

/** Whom a moment lacks, and why. */
interface Lack { id: string; why: string; }

/** What state lines say: a moment and why there was none before it, or which line is refused and with which code. */
interface StatesEvent { moment?: Moment; silence?: string; refused?: number; code?: number; }

/** What is kept of the report of a moment. */
interface Note { time: number; levels: [string, number][]; bands: [number, number, number][]; trk: number; open: number[]; answers: string; }

/** Notes packed into numbers, the first of which is that of the moment `first`. */
interface NotePack { first: number; names: string[]; answers: string[]; heads: Float64Array; levels: Uint32Array; bands: Int16Array; ends: Uint32Array; }

/** What an aircraft alerts of in a report. */
interface Alert { id: string; now: number; level: number; first: number | null; }

/** The values that candidates of a kind have. */
interface Grid { min: number; max: number; step: number; rate: number; }
type Grids = Record<Kind, Grid>;

/** A level of a configuration. */
type Level = Record<"dthr" | "zthr" | "tthr" | "tcoa" | "lookahead" | "alert" | "tcpa" | "tau" | "tep", number>;

/** A configuration, as the engine has taken it. */
interface Configuration {
  bytes: Uint8Array; resolve: number; grids: Grids; recovery: Record<"hdist" | "vdist" | "nearest", number> | null; lastTimes: boolean; levels: Level[];
}

/** A run of candidates of one level. */
interface Band { from: number; upto: number; level: number; }

/** An answer on one side: a value, or that the present one may be kept, or that none is open. */
type Answer = number | "keep" | "none";
type Recovery = "none" | { after: number; value: number };

/** What the report of a moment says. */
interface Said {
  text: string; time: number; aircraft: Alert[]; bands: Record<Kind, Band[]>; resolve: Record<Kind, { lower: Answer; upper: Answer }>;
  last: Partial<Record<Kind, Answer>>; recover: Partial<Record<Kind, Recovery>>;
}

/** Which number of states is refused: that of the ownship, or of the aircraft at a place. */
interface Fault { code: number; field: string; least: number; greatest: number; place: number; }

/** What the desk answers. */
interface Told { text?: string; code?: number; fault?: Fault | null; stopped?: string; took?: number; texts?: string[]; notes?: NotePack; }

/** The closest approach of two that fly straight on: `seconds` from now, `miles` apart then, so many ft `above`; how many NM `ahead` along the way
 *  past the other, at which `speed` (NM a second), `passing` how far from it. */
interface Approach { seconds: number; miles: number; above: number; ahead: number; speed: number; passing: number; }

/** A box of a display, in points. */
interface Box { x: number; y: number; wide: number; tall: number; weight?: number; }

/** What a display has room for. */
interface Size { width: number; height: number; }

/** A report of a recording: as its row has it, or what it lacks. */
interface Row {
  name: string; time: number; place: [number, number]; alt: number; east: number; north: number; vs: number; track: number; lack: string;
}

// The listeners of the page are told of elements.
interface EventTarget {
  closest?: any; matches?: any; value?: any; files?: any; checked?: any; open?: any; textContent?: any; getAttribute?: any;
}
interface Element { daaHtml?: string; daa?: any; daaInside?: string; }
interface ParentNode { querySelector(selectors: string): any; querySelectorAll(selectors: string): NodeListOf<any>; }

// What this TypeScript does not know yet.
declare var CompressionStream: any;
declare var DecompressionStream: any;

// What is drawn

interface Line { x1: number; y1: number; x2: number; y2: number; }

/** A tape of a display: where it is, and whether there is room for the values of answers beside their marks. */
interface Tape { left: number; width: number; top: number; bottom: number; x: number; band: number; labels: boolean; }

/** A display's letters, and what is left for compass and tapes. */
interface Frame extends Size { font: number; line: number; rows: number; top: number; foot: number; }

/** Where a compass is. */
interface Compass { centre: Point; outer: number; ringWidth: number; radius: number; }

/** Where things are in a display. */
interface Geometry extends Frame, Compass {
  answers: number; stacked?: boolean; tapes: Record<TapeKind, Tape>;
}

/** How a display is looked at, as it is chosen. */
interface Chosen { auto: boolean; trackUp: boolean; paths: boolean; range: number; heights: number; }

/** How a display is looked at: what is up, what is in the middle, and what is chosen and held. */
interface Look extends Chosen { up: number; middle: Point; chosen: string | null; held: Record<TapeKind, number> | null; }
interface View extends Look { g: Geometry; }

/** What there is to draw. */
interface Model {
  time: number; clock?: string; own: Own; traffic: Aircraft[]; config: Configuration; configs?: Configuration[]; said: Said | null; fault: string;
  name: string; note: string; lacks: boolean; trail: { x: number; y: number; own: boolean; share: number }[];
}

/** What an aircraft alerts of as it is drawn; it is unknown while there is no answer. */
type ShownAlert = Pick<Alert, "now" | "level" | "first"> & { unknown?: boolean };

/** The place of a label, and which side of its symbol it is on: -1, 0 or 1. */
interface Spot { x: number; y: number; wide: number; tall: number; align: number; led: boolean; free: boolean; }
interface Placed { box: Box; cost: number; right: number; far: number; }
interface Label extends Spot { words: string[]; told: number; line: number; }

/** What is known of an aircraft's place on the plan. */
interface Sight {
  one: Aircraft; place: number; alert: ShownAlert; p: Point; off: boolean; shown: Point; tip: Point; end: Point; miles: number; tag: string;
  called: string; label?: Label | null; isReached?: boolean;
}

/** An aircraft and how it comes closest. */
interface Ranked { one: Aircraft; place: number; called: string; alert: ShownAlert; closest: Approach; }

/** What part of the values a tape shows, and where. */
interface Scale { low: number; high: number; y(value: number): number; value(y: number): number; }

/** What can be taken hold of on a display. */
interface Handle {
  key: string; x: number; y: number; inside: string; label: string; value: string; level?: number; number: number | string; least: number; most: number;
  isReached?: boolean;
}

/** An item of a legend: what mark it has, its words, and how wide it is. */
interface LegendItem { level?: number; open?: boolean; recover?: boolean; words: string; means?: string; wide: number; }

/** The svg element of a display, with its layers as they were drawn last, and its handles. */
type Picture = SVGSVGElement & { daa?: any };

/** Where things are in the strip over time. */
interface StripPlaces extends Size {
  foot: number; first: number; last: number; from: number; upto: number; step: number; top: number; tall: number; ids: string[]; hidden: number;
  rowOf(row: number): number; x(time: number): number; time(x: number): number;
}

/** What the strip shows; `notes` and `others` are of the first and of the second configuration. */
interface StripModel {
  times: Float64Array; notes: any; others: any; most: Map<string, number>; ids: Iterable<string>; lacks(index: number): boolean; window: Pair | null;
  trk: number; step: number;
}

/** A column of the strip: from when to when it stands, and for which moments. */
interface Column { first: number; last: number; from: number; upto: number; isPainted: boolean; }
interface ColumnSum { levels: Map<string, number>; bands: Note["bands"]; trk: number; open: number[]; isOther: boolean; }

type Paint = string | CanvasPattern;
interface Paints {
  unknown: string; clear: string; own: string; open: string; ink: string; faint: string; line: string; bad: string; levels: Paint[]; key: string;
}

/** A lesson: its aircraft, when its question is asked, and which answer is followed. */
interface LessonAircraft {
  id: string; east: number; north: number; alt: number; trk: number; knots: number; vs: number; turns: { from: number; to: number } | null;
}
interface Lesson {
  config: string; seconds: number; at: number; follow: [Kind, "lower" | "upper" | "recover"]; traffic: LessonAircraft[];
  question: string; meaning: string; followed: string;
}

/** A question to the engine: a moment, or a part of a recording whose first moment is `first`. */
interface Question { config: { bytes: Uint8Array }; moment?: Moment; part?: Block; first?: number; isWhole?: boolean; }

/** A file that is read: its name and its text. */
interface Named { name: string; text: string; }

/** How recordings are read. */
interface Choice { isRecording?: boolean; own: string | null; oldest: number; }

/** Takes a block, and the share of the files that is read, where it is known. */
type GiveBlock = (block: Block, share: number | null) => void;

/** What is told of what was read, at its end. */
interface ReadEnd {
  told: string[]; alone: string; clock?: string | null; silence?: string; none: string; names?: string[] | null; own?: string | null; faults?: string[];
  taken?: string[];
}

// The page

/** One of the two displays: how it is looked at, its configuration, and what the engine said of the moment under it. */
interface Display {
  look: Chosen; desk: any; edition: number; config: Configuration; name: string; toml: string; taken: string;
  refusal: { code: number; line: number; message: string } | null; asked?: string; answered?: string; said: Said | null; fault: string; drawn: View;
}

/** A file that was opened. */
interface Opened { name: string; bytes: Uint8Array; text?: string; file?: File; }

/** The recording that is shown, where it is no text of state lines: its files, and from whom it is seen. */
interface Recorded { files: any[]; isLarge: boolean; own?: string | null; }

/** What is flown in place of what was recorded, which is kept. */
interface Flown {
  recorded: Pick<PageState, "name" | "told" | "alone" | "silence" | "lesson" | "edits" | "recording"> & { moments: any; notes: any };
  from: number; words: string;
}

/** A change by hand: the moment as it was before, or null where it was as recorded. */
interface Change { index: number; edit: Moment | null; }

/** The state of the page. */
interface PageState {
  engine: any; module?: Uint8Array; hash?: string; surveys: any[]; views: Display[]; name: string; told: string[]; untaken: string; alone: string;
  recording: Recorded | null; times: number[]; moments: any; reading: { stop(): void } | null; share: number | null; silence: string; stale: string;
  flown: Flown | null; lesson: Lesson | null; index: number; current: Moment; edited: boolean; edits: Map<number, Moment>; undone: Change[];
  redone: Change[]; window: Pair | null; axis: StripPlaces | null; playing: { since: number; from: number; frame: number } | null; version: number;
  chosen: string; held: Held | null; compare: boolean; paper: boolean; unfolded: boolean; linesOpen: boolean;
}

/** What is held by a pointer, from where and how far off its middle, and the ownship as it was then. */
interface Held {
  key: string; pointer: number; from: Point | null; middle: Point; trk: number; own: Record<TapeKind, number>; off: Point;
}

/** A number of an aircraft or of the ownship: what it is, its name and unit on the page, and how many of the engine's that unit is. */
type Field = [string, string, string, number];

/** What the page's scripts share. */
interface Ui {
  state: PageState; $: (id: string) => PageElement; FIELDS: Field[]; OWN_FIELDS: Field[];
  shownViews: () => Display[]; aircraftInOrder: () => string[]; [other: string]: any;
}

/** A row of the table of aircraft: what alerts under the first configuration and, where both are shown, under the other. */
interface TableRow {
  one: Aircraft; place: number; alert: Alert | null; other: Alert | null | undefined; miles: number; bearing: number; above: number;
}

/** What a reader gives: a block, or what is told at the end, or why nothing can be read. */
interface Read { block?: Block; share?: number | null; end?: ReadEnd; failed?: string; }

/** What comes of a flight: how near an aircraft comes, the greatest level, and how many moments alert; whether all of it is decided. */
interface Outcome {
  least: { miles: number; above: number; time: number; id: string } | null; level: number; alerting: number; isDecided: boolean;
}

// Recordings

/** A column as columns.js has it: its words, the quantity of its numbers, and its names. */
interface NamedColumn { says: string; quantity: string | null; names: string[]; }

/** Where a column is in a table: its place, its name there, and the unit that its name tells. */
interface Placing { at: number; name: string; unit: string | null; }

/** How far a second place is east and north of a first one, in NM. */
type Offset = (one: Pair, other: Pair) => Pair;

/** A place on the globe in ten-millionths of a degree, and the velocity east and north there. */
interface Place { lat: number; lon: number; vx: number; vy: number; }

/** The way from place to place in 0.00001 NM, and by how much the meridians converge. */
interface Way { east: number; north: number; turn: number; }

/** Where the ownship of a moment is on the globe, and by how much the plane round it is turned, in 0.0001 degree. */
interface Centre { place: Place; turn: number; }

/** A moment as it is shown, and its ownship as it was recorded. */
interface ShownMoment extends Moment { recorded: Own; }

/** An aircraft in the plane round an ownship, which is at 0 0. */
interface Seen { x: number; y: number; vx: number; vy: number; }

/** A moment's ownship, where it is on the globe (or null), and by how much the plane round it is turned: in 0.0001 degree, and as an angle. */
interface OwnFrame { own: Own; place: Place | null; turn: number; angle: number; }

/** An aircraft that a moment lacks: how far it was, its name, and what it lacks. */
type Lacking = [number, string, string];

/** What was read of all files: their sources, and what these tell. */
interface ReadFiles { rows: Row[]; sources: any[]; labels: Map<string, string>; faults: string[]; taken: string[]; notes: string[]; }

/** A recording, whose moments are made one after the other; what is told is known once all are taken. */
interface OpenRecording {
  moments(): Iterable<Moment>; end(): any; wasTaken(): string[]; clock: string; head: string[]; wholeNames(): Map<string, string>;
}

/** What an aircraft did from report to report. */
interface Steps { moved: number[]; ratios: number[]; turns: number[]; stated: number[]; climbed: number; saidClimb: number; }

/** A kind of fault, and its number. */
type Suspicion = [string, number];
