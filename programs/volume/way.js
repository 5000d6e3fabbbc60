// Decides whether the office here may be asked, and asks the offices until one of them answers.
//
// An accepted message is answered again as it was, so it may be sent as often as it takes, to whichever office serves.
// But an office that has lost its file to the other machine goes on giving pages from its memory, until it is ended. So
// the office here is asked only while this machine has a lease: for some seconds after a sign of it that is certainly
// on the volume. office-watch writes down when they are over, in seconds since this machine was switched on. Nobody
// sets that clock, and it goes on while the machine hangs.
//
// The other machine's lease may last for as long after that machine has lost the lock, whoever took it away. So an
// office that has just got it isn't asked at once. office-waiting gives each program a name from when it listens until
// it has ended, and office-watch writes down the name of the one that may be asked.
import fs from 'fs';

const RUN = '/run/office-volume/';
const WAITING = '/run/office-waiting';
const LISTENING = `${WAITING}/listening`;

// In milliseconds. The front waits for longer. Most takeovers end within the first seconds, in which pauses are short.
const LONGEST_WAIT = 120000;
const FIRST = 10000;
const PAUSE = 250;
const LATER_PAUSE = 1000;
// The other machine is asked again after so much of the time that the message has waited, and at least that often.
const PART_OF_WAIT = 1 / 8;
const LONGEST_PAUSE = 4000;

// What a file has, if it is there. All of them are in memory, so this never waits. What a message takes of memory it
// keeps until it is answered, and an exception takes 150 kB: so the file is looked for first.
function text(path) {
    try {
        return fs.statSync(path, {throwIfNoEntry: false}) ? fs.readFileSync(path, 'utf8') : '';
    } catch (fault) {
        return '';
    }
}

// The number that a file begins with, if there is one.
function number(path) {
    return parseFloat(text(path));
}

// The name that a file has, if there is one.
function name(path) {
    return text(path).trim();
}

function isLent() {
    const now = number('/proc/uptime');
    const office = name(LISTENING);
    return now < number(RUN + 'lease') && !(now < number(RUN + 'withheld'))
        && office !== '' && office === name(RUN + 'asked');
}

// For the other machine, whose office is asked at once if none listens here: then none here is asked any more. Only a
// file that isn't there means that. It is the file without which isLent() is false.
function listening(r) {
    let said = 'unknown';
    try {
        said = fs.readFileSync(LISTENING, 'utf8') === '' ? said : 'one';
    } catch (fault) {
        said = fault.code === 'ENOENT' ? 'none' : said;
    }
    r.return(200, `${said}\n`);
}

// For a restore, which nobody may have an office open for. The unit of an office has a folder for as long as it runs,
// also while its office waits for the lock.
function running(r) {
    let said = 'unknown';
    try {
        said = fs.statSync(WAITING, {throwIfNoEntry: false}) ? 'one' : 'none';
    } catch (fault) {
        // It can't be looked at.
    }
    r.return(200, `${said}\n`);
}

// For way.conf: whom to ask for the front of this machine, and whether the other machine gets an answer.
function asked() {
    return isLent() ? 'offices' : 'other';
}
function lent() {
    return isLent() ? 'yes' : '';
}

// Whether an answer may be passed on. nginx names whom it asked, and the last of them answered.
function isGood(answer) {
    const asked = answer.variables.upstream_addr;
    return answer.status < 500 && (!asked || asked.endsWith('/other.sock') || isLent());
}

// For way.conf, as a page begins to come: ends the connection instead.
function pass(r) {
    if (r.status < 500 && !isGood(r)) {
        throw new Error('the lease is over');
    }
}

function answerBy(r, answer) {
    r.headersOut['Content-Type'] = answer.headersOut['Content-Type'];
    r.return(answer.status, answer.responseBuffer);
}

// For the other machine: asks the office here once.
async function askOnce(r) {
    const answer = isLent() ? await r.subrequest(`/here${r.uri}`, {method: r.method}) : null;
    if (answer && isGood(answer)) {
        answerBy(r, answer);
    } else {
        r.return(502);
    }
}

// A message waits here until an office answers. Many may wait at once, so that costs little: only the files of this
// machine are looked at each time. The other machine is asked less and less often. That takes 20 kB until the message
// is answered, and a handshake of both machines. So who has waited for long waits for up to four seconds more.
async function ask(r) {
    const begun = Date.now();
    let due = begun;
    for (;;) {
        if (isLent() || Date.now() >= due) {
            // This isn't a variable of nginx, which would stay as it was when this request began.
            const answer = await r.subrequest(`/${asked()}${r.uri}`, {method: r.method});
            if (isGood(answer)) {
                answerBy(r, answer);
                return;
            }
            due = Date.now() + Math.min((Date.now() - begun) * PART_OF_WAIT, LONGEST_PAUSE);
        }
        const waited = Date.now() - begun;
        if (waited > LONGEST_WAIT) {
            r.return(502);
            return;
        }
        await new Promise((done) => setTimeout(done, waited < FIRST ? PAUSE : LATER_PAUSE));
    }
}

export default {ask, askOnce, asked, lent, listening, pass, running};
