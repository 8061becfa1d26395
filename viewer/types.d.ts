// The types of what the scripts work with. The comments of the scripts name them, and TypeScript's
// compiler checks them (tests/types.test.js). A trace's words are explained in docs/FORMATS.md.

/** A place of the machine, as places.js numbers it. */
type Place = number;

interface Operation {
    /** Null where a part of a trace doesn't show it. */
    kind: "load" | "store" | "faa" | "swap" | null;
    /** The word of a store, a fetch-and-add or a swap; 0 for a load. */
    word: number;
}

/** A PE and a cell: what a request in the network is identified by. */
interface Identity {
    pe: number;
    cell: number;
}

/** `P@A OP`, and `*` where it has combined in its queue. */
interface RequestMessage extends Identity, Operation {
    isMarked: boolean;
}

/** `P@A = V`; the value of an acknowledgement is null. */
interface ReplyMessage extends Identity {
    value: number | null;
}

/** How one of two requests that combined is answered from the reply for both. */
interface Give {
    kind: "same" | "plus" | "fixed" | "ack";
    word: number;
}

/** `P@A GIVE Q GIVE`, an entry of a wait buffer. */
interface WaitRecord extends Identity {
    giveOld: Give;
    partner: number;
    giveNew: Give;
}

type Entry = RequestMessage | ReplyMessage | WaitRecord;

interface ActLine {
    module: number;
    request: RequestMessage;
    value: number | null;
    now: number;
}

/** What a trace says of a cycle. */
interface CycleText {
    number: number;
    got: ReplyMessage[];
    acts: ActLine[];
    faults: { pe: number; fault: string }[];
    places: Map<Place, Entry[]>;
}

/** A request from issue to answer, as the history has it. */
interface KnownRequest extends Identity, Operation {
    /** Null in a part of a trace, where it isn't known. */
    number: number | null;
    issued: number;
    answered: number | null;
    value: number | null;
    parent: KnownPair | null;
    act: KnownAct | null;
}

/** Two requests that combined. */
interface KnownPair extends Operation {
    cycle: number;
    stage: number;
    position: number;
    cell: number;
    isOldFirst: boolean;
    old: Tree;
    later: Tree;
    parent: KnownPair | null;
    act: KnownAct | null;
}

type Tree = KnownRequest | KnownPair;

/** An act of a memory module, with the tree of the requests that it served. */
interface KnownAct {
    cycle: number;
    module: number;
    cell: number;
    request: RequestMessage;
    value: number | null;
    now: number;
    tree: Tree;
    index: number;
}
