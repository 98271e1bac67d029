// Reads responses. A response is the desk's reply if its body is JSON of the expected shape, or a fault with the response's status. Fault 22
// (unavailable) and any other response don't count as a reply, because they don't show whether the desk carried out the request.

// The HTTP status of each fault, by the fault's number.
const STATUSES = {
  1: 400, 2: 404, 3: 405, 4: 401, 5: 400, 6: 400, 7: 400, 8: 400, 9: 401, 10: 403, 11: 403, 12: 403,
  13: 409, 14: 404, 15: 404, 16: 409, 17: 409, 18: 409, 19: 409, 20: 402, 21: 409, 22: 503,
};
const PASS_TOO_LONG = 5;
export const NOT_VERIFIED = 9;
export const KEY_REVOKED = 10;
export const CAVEAT_NOT_UNDERSTOOD = 11;
export const CAVEAT_DENIES = 12;
export const NUMBER_USED = 13;
export const NO_SUCH_FACILITY = 14;
export const NO_SUCH_BOOKING = 15;
export const NOT_BOOKABLE = 16;
export const SLOT_CLOSED = 17;
export const SLOT_HAS_BEGUN = 21;
const UNAVAILABLE = 22;

const TOO_MANY_REQUESTS = 429; // the status comes from the proxy

// The desk sent no reply. `wait` is the time in milliseconds that the proxy asked the page to wait, or 0. `status` is the status of the response, or
// 0 without a response.
export class NoReply extends Error {
  constructor(what, status = 0, wait = 0) {
    super(what);
    Object.assign(this, { status, wait });
  }
}

// Throws if the response is the proxy's message that there were too many requests.
export function refuseTooMany(status, retryAfter) {
  if (status === TOO_MANY_REQUESTS) throw new NoReply(`status ${status}`, status, 1000 * (Number(retryAfter) || 1));
}

// Returns whether the desk refuses every request under the pass.
export function refusesPass({ fault }) {
  return fault !== undefined && fault >= PASS_TOO_LONG && fault <= CAVEAT_NOT_UNDERSTOOD;
}

function isCount(value) {
  return Number.isInteger(value) && value >= 0;
}

// For each kind of request, a function returns whether a body is a reply to such a request.
const SHAPES = {
  view: (body, { facility, day, hour }) => body.facility === facility && body.day === day && body.hour === hour
    && isCount(body.price) && isCount(body.places) && isCount(body.taken) && typeof body.closed === "boolean",
  book: (body, { key, number }) => body.booking === `${key}/${number}` && isCount(body.charge) && isCount(body.left),
  cancel: (body, { key, number }) => body.booking === `${key}/${number}` && isCount(body.refund),
  account: (body) => typeof body.member === "string" && [body.balance, body.quota, body.open, body.spent].every(isCount),
};

// Returns the reply in a response with this status and text, or throws NoReply.
export function readReply(action, asked, status, text) {
  let body;
  try {
    body = JSON.parse(text);
  } catch {
    throw new NoReply(`status ${status}`, status);
  }
  if (typeof body !== "object" || body === null) throw new NoReply(`status ${status}`, status);
  if (status === 200 && SHAPES[action](body, asked)) return body;
  if (status === 200 || !isCount(body.fault) || STATUSES[body.fault] !== status || body.fault === UNAVAILABLE) throw new NoReply(`status ${status}`, status);
  return body;
}

// Returns whether the desk refused a booking because its price rose (price.mjs). The refusal has the new price, or null.
export function isOfPrice(reply) {
  return reply.fault === CAVEAT_DENIES && reply.price !== undefined;
}

// Returns whether a refusal concerns the form of the request or its pass. Such a refusal doesn't show whether the desk
// served an earlier try of the same request. A refusal because of the price shows that the desk served no earlier try.
export function isOfPass(reply) {
  return reply.fault <= CAVEAT_DENIES && !isOfPrice(reply);
}
