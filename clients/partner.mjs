#!/usr/bin/env node
// A partner of `acdm serve`: sends objects, and prints the reply to each.
//
//     clients/partner.mjs ADDRESS[,ADDRESS..] [--feed ADDRESS[,ADDRESS..]] [--patience SECONDS] < objects
//
// ADDRESS is the partner's own, as 127.0.0.1:4002, and behind commas those of boards that may take over (`acdm follow`),
// which are tried in turn; standard input has one JSON object a line (docs/CONNECT.md). Each line waits for the reply to
// the one before. After a break it connects again. Was a line sent and not replied, it may have been entered. With
// --feed, the address of `serve --changes`, and those of the others, it is looked for there, and sent again only where
// it made no entry; else its reply is that of the feed. Without --feed, or where the board has another journal by then,
// the program stops, and names the line. A question and a tick are sent again in any case. A line is sent as it stands,
// and a flight's number is read as its digits: one above 2^53 would lose some as a number of JavaScript's. Status 0
// where each line was accepted, 1 where one was not, 2 where it had to stop. Needs no library. Outside what is proved.
import net from "node:net";
import { setTimeout as pause } from "node:timers/promises";

// What changes the board: it is never sent again on a guess.
const CHANGES = new Set(["report", "schedule", "deice", "load", "unload", "migrate"]);
// (answered `bad 102`, behind all lines of the connection before, and makes no entry)
const NO_COMMAND = "{}";
const QUESTION = '{"cmd":"show","flight":1}';
const NAME = /^[0-9a-f]{32}$/;
const REPLY = /^((ok|no|rec|alerts|migrated) \d+|bad \d+)( [ -~]*)?$/;
const INSTANT =
  /^(\d{4})-?(\d\d)-?(\d\d)[Tt ](\d\d)(?::?(\d\d)(?::?\d\d(?:[.,]\d+)?)?)?(?:[Zz]|([+-])(\d\d)(?::?(\d\d))?)(?:\[.*)?$/;
// (a board of 4,096 flights has 4 MB)
const LONGEST_LINE = 1 << 24;

// Why no line is sent any more.
class Stop extends Error {}

const named = ({ host, port }) => `${host}:${port}`;
const shortened = (text, most = 60) => (text.length <= most ? text : text.slice(0, most) + "..");
const parsed = (text) => JSON.parse(text.replace(/"flight"\s*:\s*(\d+)(?![\d.eE])/g, '"flight":"$1"'));

// An instant as the feed tells it, or nothing where it can't be read here.
function minuteOf(instant) {
  const found = INSTANT.exec(instant);
  if (!found) return null;
  const [year, month, day, hour, minute] = found.slice(1, 6).map((digits) => Number(digits ?? 0));
  const ahead = (60 * Number(found[7] ?? 0) + Number(found[8] ?? 0)) * (found[6] === "-" ? -1 : 1);
  const moment = new Date(0);
  moment.setUTCFullYear(year, month - 1, day);
  moment.setUTCHours(hour, minute - ahead);
  return Number.isNaN(moment.getTime()) ? null : moment.toISOString().slice(0, 17) + "00Z";
}

// Whether the feed tells of this command: each field that it tells is the one that was sent.
function isSame(entered, command) {
  return Object.entries(entered).every(([name, value]) => {
    if (name === "instructions" || name === "layout") return true;
    const sent = command[name] ?? (name === "length" ? 128 : null);
    const isTime = (name === "time" || name === "sobt") && typeof sent === "string";
    return (isTime ? minuteOf(sent) ?? value : sent) === value;
  });
}

// The reply to the command of an entry, as far as the feed tells it.
function replyOf({ entry, outcome, command }) {
  if (outcome !== "ok") return `no ${entry} ${outcome.code}`;
  return `${command.cmd === "migrate" ? "migrated" : "ok"} ${entry}`;
}

// The number of the entry that a reply tells of, if there is one.
const numberOf = (reply) => (reply.startsWith("bad") ? null : Number(reply.split(" ")[1]));

// A connection whose lines are waited for one by one; `null` where there is none any more.
function open({ host, port }, seconds = 0) {
  return new Promise((resolve, reject) => {
    const stream = net.createConnection({ host, port, noDelay: true });
    let rest = "", isOver = false, waiting = null;
    const give = () => {
      const end = rest.indexOf("\n");
      if (!waiting || (end < 0 && !isOver)) return;
      const take = waiting;
      waiting = null;
      take(end < 0 ? null : rest.slice(0, end));
      rest = end < 0 ? "" : rest.slice(end + 1);
    };
    const line = () => new Promise((take) => { waiting = take; give(); });
    stream.setEncoding("latin1");
    if (seconds) stream.setTimeout(1000 * seconds, () => stream.destroy());
    stream.on("data", (text) => { rest += text; if (rest.length > LONGEST_LINE) stream.destroy(); give(); });
    stream.on("close", () => { isOver = true; give(); });
    stream.on("error", reject);
    const tooLong = setTimeout(() => stream.destroy(new Error("timed out")), 5000);
    stream.on("close", () => clearTimeout(tooLong));
    stream.on("connect", () => {
      clearTimeout(tooLong);
      resolve({ stream, line, isOpen: () => !isOver && !stream.readableEnded });
    });
  });
}

// A connection to a partner's address, which is made again after a break: to the first of several that is there.
class Connection {
  constructor(places, patience) {
    // (whether it is not known yet which journal the lines of this connection go to)
    Object.assign(this, { places, place: 0, patience, link: null, until: null, isNew: true });
  }

  get where() {
    return this.places[this.place];
  }

  // Waits before another trial, while there is patience: it counts from the first fault of a line on.
  async wait(milliseconds, why) {
    this.until ??= Date.now() + 1000 * this.patience;
    if (Date.now() >= this.until) throw new Stop(why);
    await pause(milliseconds);
  }

  async connect() {
    if (this.link && !this.link.isOpen()) this.close();
    for (let wait = 100; this.link === null; wait = Math.min(2 * wait, 5000)) {
      try {
        this.link = await open(this.where);
        this.isNew = true;
      } catch (error) {
        const why = `${named(this.where)}: ${error.message}`;
        this.place = (this.place + 1) % this.places.length;
        await this.wait(wait, why);
      }
    }
  }

  close() {
    // (the server keeps the connection open until all partners have ended)
    this.link?.stream.destroySoon();
    this.link = null;
  }

  // Sends a line on the connection that there is, and gives its reply; nothing where the connection broke.
  async exchange(line) {
    const { stream, line: next } = this.link;
    stream.write(line + "\n");
    const reply = await next();
    if (reply !== null && REPLY.test(reply)) return reply;
    this.close();
    const said = reply === null ? "" : JSON.stringify(shortened(reply));
    if (said) throw new Stop(`${named(this.where)} answers ${said}, as no board does`);
    await this.wait(100, `${named(this.where)}: the connection broke before the reply`);
    return null;
  }

  // The reply to a line that may be sent more than once.
  async insist(line) {
    for (;;) {
      await this.connect();
      const reply = await this.exchange(line);
      if (reply !== null) return reply;
    }
  }
}

// A partner, each of whose lines is entered once. `journal` is the name of the journal that the lines of this connection
// go to. Of it, `known` is the last entry that was replied here, with its command, and `first` the first one that may
// have the next line. `line` is the line in hand with its number, `isUncertain` whether it may have been entered.
class Partner {
  constructor(places, feeds, patience) {
    Object.assign(this, { connection: new Connection(places, patience), feeds, known: null, first: null, line: null });
    Object.assign(this, { journal: "", isUncertain: false });
  }

  // The feed of the board that is connected to.
  get feed() {
    return this.feeds[this.connection.place] ?? null;
  }

  // The reply to a line, which is entered once, and how it came.
  async ask(line) {
    this.connection.until = null;
    this.isUncertain = false;
    const command = parsed(line);
    const isChange = CHANGES.has(command?.cmd);
    for (let note = ""; ; note = " (sent again)") {
      await this.connection.connect();
      if (this.feed && isChange && await this.meet()) note = " (in another journal)";
      this.isUncertain = isChange;
      const reply = await this.connection.exchange(line);
      const entry = reply === null && isChange ? await this.find(command) : null;
      if (reply === null && entry === null) continue;
      // (an entry counts of a journal whose name is known)
      if (entry || !this.feed || !this.connection.isNew) this.take(entry ? entry.entry : numberOf(reply), command);
      return entry ? [replyOf(entry), " (from the feed)"] : [reply, note];
    }
  }

  take(number, command) {
    if (number === null) return;
    Object.assign(this, { known: { number, command }, first: number + 1, isUncertain: false });
  }

  // Learns which journal the lines of a new connection go to, and says whether it is another than before.
  async meet() {
    const before = this.journal;
    // (a journal that was empty has got its name with its first entry)
    if (!this.connection.isNew && (before || !this.known)) return false;
    // (behind this reply all lines before it are entered or dropped; it may come by another new connection)
    await this.connection.insist(NO_COMMAND);
    const told = await this.board();
    if (before && told.journal !== before) Object.assign(this, { known: null, first: told.next });
    this.first ??= told.next;
    this.journal = told.journal;
    this.connection.isNew = false;
    return before !== "" && this.journal !== before;
  }

  // Stops where a board has another journal than the one that lines went to.
  check({ journal }) {
    if (this.journal && journal !== this.journal)
      throw new Stop(`the feed at ${named(this.feed)}: ${otherJournal(journal, this.journal)}`);
    this.journal = journal;
  }

  // The entry of a command that was sent and not replied, once that is decided; `null` where there is none.
  async find(command) {
    if (!this.feed) throw new Stop("the connection broke, and without --feed nobody can say whether it was entered");
    const first = this.first ?? 0;
    let known = this.known;
    // Lines of a session are answered in order, over all its connections: behind this reply the line was entered or
    // dropped. Where no entry is known to be of this session, a question makes one.
    await this.connection.insist(NO_COMMAND);
    this.check(await this.board());
    if (!known) {
      // (it may come by a new connection; whether that has the same journal is asked behind it)
      const number = numberOf(await this.connection.insist(QUESTION));
      known = number === null ? null : { number, command: parsed(QUESTION) };
    }
    const lines = await this.entriesFrom(known ? Math.min(first, known.number) : first);
    this.connection.isNew = false;
    if (known === null) {
      if (lines.some((line) => isSame(line.command, command)))
        throw new Stop("the feed has such an entry, and it is not known whose");
      return null;
    }
    const own = lines.find((line) => line.entry === known.number);
    if (!own || !isSame(own.command, known.command))
      throw new Stop(
        `the feed at ${named(this.feed)} is of another journal: its entry ${known.number} is not the one replied`,
      );
    const mine = lines.filter((line) => line.session === own.session && line.entry >= first && line !== own);
    return mine.find((line) => isSame(line.command, command)) ?? null;
  }

  // The board as it is now.
  async board() {
    const [board] = await this.read("board", 1);
    if (!board.flights) throw new Stop(`the feed at ${named(this.feed)} sends no board where one is asked for`);
    return board;
  }

  // The entries from one on, of the journal that lines go to.
  async entriesFrom(first) {
    const board = await this.board();
    this.check(board);
    if (first >= board.next) return [];
    const [told, ...entries] = await this.read(`from ${first}`, board.next - first + 1);
    if (told.journal === undefined)
      throw new Stop(`the feed at ${named(this.feed)} sends an entry before the name of its journal`);
    this.check(told);
    if (told.flights || entries.some(({ entry }, place) => entry !== first + place))
      throw new Stop(`the feed at ${named(this.feed)} does not have the entries from ${first} on any more`);
    return entries;
  }

  // So many lines of the feed.
  async read(words, wanted) {
    for (;;) {
      let link = null;
      try {
        link = await open(this.feed, 5);
        link.stream.write(words + "\n");
        const found = [];
        while (found.length < wanted) {
          const text = await link.line();
          if (text === null) break;
          found.push(lineOf(text, this.feed));
          // (a journal that ends before what is asked for is another one)
          if (found[0].flights) return found;
        }
        if (found.length === wanted) return found;
      } catch (error) {
        if (error instanceof Stop) throw error;
      } finally {
        link?.stream.destroy();
      }
      await this.connection.wait(200, `the feed at ${named(this.feed)} is not there`);
    }
  }
}

// What is said of another journal than before.
const otherJournal = (name, before) =>
  name ? `the board has another journal, ${name} for ${before}` : "the board has another journal, without an entry yet";

// A line of the feed, as a value: of a board, of a journal, or of an entry.
function lineOf(text, where) {
  try {
    const line = parsed(text), isEmpty = line.flights && line.journal === "" && line.next === 0;
    if (line.journal === undefined ? line.command.cmd : isEmpty || (NAME.test(line.journal) && line.next >= 0)) return line;
  } catch {
    // (told below)
  }
  throw new Stop(`the feed at ${named(where)} sends ${JSON.stringify(shortened(text))}, which is no line of a feed`);
}

// The lines of standard input that have something, each with its number; each is an object.
async function* linesOf(input) {
  let rest = Buffer.alloc(0), number = 0;
  const checked = (data) => {
    number += 1;
    let line, value;
    try {
      const text = new TextDecoder("utf-8", { fatal: true, ignoreBOM: true }).decode(data);
      line = text.replace(/^[ \t\r]+|[ \t\r]+$/g, "");
      value = line ? JSON.parse(line) : {};
    } catch (error) {
      throw new Stop(`line ${number} is no JSON: ${error.message.replaceAll("\n", " ")}`);
    }
    if (Object.prototype.toString.call(value) !== "[object Object]")
      throw new Stop(`line ${number} is no object: ${shortened(line)}`);
    return line;
  };
  for await (const part of input) {
    rest = Buffer.concat([rest, part]);
    for (let end = rest.indexOf(10); end >= 0; end = rest.indexOf(10)) {
      const line = checked(rest.subarray(0, end));
      rest = rest.subarray(end + 1);
      if (line) yield [number, line];
    }
  }
  const last = rest.length ? checked(rest) : "";
  if (last) yield [number, last];
}

// What is said where a line has no reply.
function stopped(partner, number, line, why) {
  if (!partner.isUncertain) return `line ${number} was not sent: ${why}`;
  const last = partner.known ? `the last reply told of entry ${partner.known.number}` : "no reply came before it";
  return `line ${number} has no reply and may have been entered, ${last}: ${shortened(line, 200)}: ${why}`;
}

// Sends all lines, and prints their replies.
async function run(partner, input) {
  let status = 0;
  watchSignals(partner);
  for await (const [number, line] of linesOf(input)) {
    partner.line = [number, line];
    const [reply, note] = await partner.ask(line).catch((error) => {
      throw error instanceof Stop ? new Stop(stopped(partner, number, line, error.message)) : error;
    });
    partner.line = null;
    console.log(reply + note);
    if (!/^(ok|rec|alerts|migrated) /.test(reply)) status = 1;
  }
  partner.connection.close();
  return status;
}

// Says which line is uncertain where the program is interrupted, and ends where nobody reads its replies.
function watchSignals(partner) {
  process.stdout.on("error", () => process.exit(2));
  process.on("SIGINT", () => {
    if (partner.line) console.error(`partner.mjs: ${stopped(partner, ...partner.line, "interrupted")}`);
    process.exit(2);
  });
}

// The host and the port of HOST:PORT, [HOST]:PORT, or of a PORT of the loopback interface.
function parseAddress(text) {
  const found = /^(?:(?:\[([^\]]+)\]|([^:]+)):)?(\d{1,5})$/.exec(text ?? "");
  const port = Number(found?.[3]);
  if (!(port >= 1 && port <= 65535)) throw new Stop(`'${text}' is no address, as 127.0.0.1:4002 or [::1]:4002`);
  return { host: found[1] ?? found[2] ?? "127.0.0.1", port };
}

// Addresses with commas between them.
const parseAddresses = (text) => (text ?? "").split(",").map(parseAddress);

// The words of the command line.
function given(words) {
  const usage = "an ADDRESS is wanted, or several, and then at most --feed ADDRESS and --patience SECONDS";
  const [address, ...rest] = words;
  const options = { feeds: [], patience: 60 };
  for (let place = 0; place < rest.length; place += 2) {
    const word = rest[place + 1];
    if (rest[place] === "--feed") options.feeds = parseAddresses(word);
    else if (rest[place] === "--patience" && Number(word) >= 0) options.patience = Number(word);
    else throw new Stop(`${rest[place]}: ${usage}`);
  }
  if (address === undefined || address.startsWith("-")) throw new Stop(usage);
  const places = parseAddresses(address);
  if (options.feeds.length && options.feeds.length !== places.length)
    throw new Stop("--feed has another number of addresses than the partner");
  return new Partner(places, options.feeds, options.patience);
}

try {
  process.exitCode = await run(given(process.argv.slice(2)), process.stdin);
} catch (error) {
  if (!(error instanceof Stop)) throw error;
  console.error(`partner.mjs: ${error.message}`);
  process.exit(2);
}
