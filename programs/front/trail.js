// What the front keeps of a message and of the office's answer, for a line of events.log.

// In bytes: of an answer, of which the longest that an office accepts a message with has 99; of a line of a message, of
// which only `principals` may be longer than 103. A message says what it does in seven lines at most.
const LONGEST_ANSWER = 128;
const LONGEST_LINE = 110;
const LONGEST_PRINCIPALS = 1100;
const MOST_LINES = 7;
const WORDS = new RegExp('^(department|issue|renew|deliver|revoke-serial|revoke-range|revoke-keyid|rollover|keyid|kind|'
    + 'principals|after|before|digest)(?: .*)?$', 'gm');

// For nginx.conf, as an answer to a message comes: keeps its beginning, and hands it on as it is.
function keep(r, data, flags) {
    try {
        const kept = r.variables.office_answer || '';
        if (kept.length < LONGEST_ANSWER) {
            r.variables.office_answer = (kept + data.toString()).slice(0, LONGEST_ANSWER);
        }
    } catch (fault) {
        r.error(`an answer isn't kept: ${fault.message}`);
    }
    r.sendBuffer(data, flags);
}

// For nginx.conf: the lines of a message that say what it does, without keys and signatures, and each word once. What
// isn't a message may have anything there, and gets no longer in the log's JSON than it is here but for its quotes.
function message(r) {
    try {
        const found = {};
        const body = r.requestBuffer ? r.requestBuffer.toString() : '';
        let line;
        WORDS.lastIndex = 0;
        while (Object.keys(found).length < MOST_LINES && (line = WORDS.exec(body)) !== null) {
            if (!(line[1] in found)) {
                found[line[1]] = line[1] === 'principals'
                    ? line[0].slice(0, LONGEST_PRINCIPALS).replace(/[^ !#-\[\]-~]/g, '?')
                    : line[0].slice(0, LONGEST_LINE).replace(/[^ -~]/g, '?');
            }
        }
        return Object.keys(found).map((it) => found[it]).join('\n');
    } catch (fault) {
        r.error(`a message isn't kept: ${fault.message}`);
        return '';
    }
}

export default {keep, message};
