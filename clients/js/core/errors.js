// Why something is refused or was given up, with the protocol's numbers and names.

/**
 * What every error of this library is. `name` is the protocol's name, and `number` its number in
 * the group that `kind` names: `call`, `write`, `message`, `denied` or `fault`. In the group `ended`
 * the protocol has no numbers, and `number` is 0.
 */
export class PresenceError extends Error {
  /**
   * @param {string} message what happened, and what to do
   * @param {ErrorOptions} [options]
   */
  constructor(message, options) {
    super(message, options);
    this.name = this.constructor.title;
    /** @type {string} */
    this.kind = this.constructor.kind;
    /** @type {number} */
    this.number = this.constructor.number;
  }
  static title = "PresenceError";
  static kind = "call";
  static number = 0;
}

function errorClass(parent, kind, number, title, text) {
  const made = class extends parent {
    constructor(message = text, options) {
      super(message, options);
    }
  };
  Object.defineProperty(made, "name", { value: title });
  return Object.assign(made, { title, kind, number });
}

// ---- a call is refused

/** Something is to be left for the end of the session, or taken back, and none is open. */
export const Offline = errorClass(PresenceError, "call", 2, "Offline",
  "no session is open: call onDisconnect again when onConnected says true");
/** No transaction with this request waits for an answer. */
export const NoSuchRequest = errorClass(PresenceError, "call", 3, "NoSuchRequest", "no transaction with this request waits for an answer");
/** A number would pass 2^53 - 1. */
export const Spent = errorClass(PresenceError, "call", 4, "Spent", "no numbers are left: start the client again");
/** What was to be written is refused: the classes of the group `write` say why. */
export const WriteRefused = errorClass(PresenceError, "write", 0, "WriteRefused", "the write is refused");

// ---- what is to be written is refused

/** A key is the empty text. */
export const EmptyKey = errorClass(WriteRefused, "write", 2, "EmptyKey", "a key is empty");
/** A key has more than 768 bytes. */
export const LongKey = errorClass(WriteRefused, "write", 3, "LongKey", "a key has more than 768 bytes of UTF-8");
/** A key has a character that no key has. */
export const BadKey = errorClass(WriteRefused, "write", 4, "BadKey", "a key has a control character or one of . $ # [ ] /");
/** Data is nested more than 32 levels deep, the path included. */
export const TooDeep = errorClass(WriteRefused, "write", 5, "TooDeep", "data is nested more than 32 levels deep, its path included");
/** A number isn't whole. */
export const NotWhole = errorClass(WriteRefused, "write", 6, "NotWhole", "numbers are whole: keep a fraction as a text, or count in smaller units");
/** A whole number is out of -2^63 .. 2^63 - 1, or past 2^53 - 1 and no BigInt. */
export const Range = errorClass(WriteRefused, "write", 7, "Range", "whole numbers are from -2^63 to 2^63 - 1, and those past 2^53 - 1 are given as BigInt");
/** An object with the name `.sv` is no server value. */
export const Placeholder = errorClass(WriteRefused, "write", 8, "Placeholder", "an object with the name .sv is none that serverTimestamp() or increment() makes");
/** Two places of an update are one, or one is above the other. */
export const Overlap = errorClass(WriteRefused, "write", 9, "Overlap", "two places of the update are one, or one is above the other");
/** An update names more than 256 places. */
export const ManyPaths = errorClass(WriteRefused, "write", 10, "ManyPaths", "an update has at most 256 places: make several updates");
/** The values of an update are no object. */
export const Shape = errorClass(WriteRefused, "write", 11, "Shape", "the values of an update are an object of values under their paths");

// ---- a text, or a value, is no message's

/** A text is no JSON, or a value can't be written as JSON. */
export const NotJson = errorClass(PresenceError, "message", 2, "NotJson", "this is no JSON");
/** A message would have more than 1,048,576 bytes. */
export const TooLong = errorClass(PresenceError, "message", 3, "TooLong", "the write has more than 1,048,576 bytes: write it in parts");
/** A text is no message to a client. */
export const NoSuchMessage = errorClass(PresenceError, "message", 4, "NoSuchMessage", "this is no message to a client");
/** A field of a message is missing, or isn't what it has to be. */
export class Field extends PresenceError {
  static title = "Field";
  static kind = "message";
  static number = 5;
  /** @param {string} field the field's name */
  constructor(field) {
    super(`the field ${field} is missing, or isn't what it has to be`);
    this.field = field;
  }
}

// ---- the server met a limit

/** The session has left as much for its end as it may. */
export const DeniedPlan = errorClass(PresenceError, "denied", 1, "DeniedPlan",
  "256 places are left for the end of the session: cancel some, or leave one at a place above them");
/** The session listens to as many paths as it may. */
export const DeniedListens = errorClass(PresenceError, "denied", 2, "DeniedListens",
  "256 paths are listened to: listen to one above them, or to fewer at once");

// ---- the server refused a message

/** What the server answers where it refuses a message. */
export const ServerFault = errorClass(PresenceError, "fault", 0, "ServerFault", "the server refused a message");
/** The server takes a message for none, or an answer of it fitted nothing. */
export const FaultBad = errorClass(ServerFault, "fault", 1, "FaultBad",
  "the client and the server disagree on a message: do both have one version, and one incarnation one client?");
/** The server knows a newer session of the client. */
export const FaultOld = errorClass(ServerFault, "fault", 2, "FaultOld",
  "the server has had a newer session of this client: hand in a greater incarnation, or another client id");
/** The session isn't open at the server. */
export const FaultSession = errorClass(ServerFault, "fault", 3, "FaultSession", "the session isn't open at the server any more");
/** A message left out a number. */
export const FaultOrder = errorClass(ServerFault, "fault", 4, "FaultOrder", "the server misses a message before this one");
/** As many sessions are open as may be. */
export const FaultFull = errorClass(ServerFault, "fault", 5, "FaultFull", "the server has as many sessions as it may have: it is asked again later");
/** The server had no memory, or its store refused. */
export const FaultBusy = errorClass(ServerFault, "fault", 6, "FaultBusy", "the server couldn't keep the message: it is sent again");
/** The server has no numbers left. */
export const FaultSpent = errorClass(ServerFault, "fault", 7, "FaultSpent", "the server has no numbers left");
/** The server has to be started again. */
export const FaultDown = errorClass(ServerFault, "fault", 8, "FaultDown", "the server has to be started again");

/** The errors of the codes 1 to 8. */
export const FAULTS = [undefined, FaultBad, FaultOld, FaultSession, FaultOrder, FaultFull, FaultBusy, FaultSpent, FaultDown];

// ---- what was given up

/** A transaction was overtaken 25 times. */
export const TooManyTries = errorClass(PresenceError, "ended", 0, "TooManyTries", "the transaction was overtaken 25 times: try again later");
/** The session ended before the answer came: whether what was left for its end stands isn't known. */
export const ActionLost = errorClass(PresenceError, "ended", 0, "ActionLost",
  "the connection was lost before the answer came: call onDisconnect again when onConnected says true");
/** Another tab or program goes on under this client id; this one has stopped. */
export const Superseded = errorClass(PresenceError, "ended", 0, "Superseded",
  "a newer tab or program has this client id, so this one stopped: goOnline takes it back");
