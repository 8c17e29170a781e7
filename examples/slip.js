// A slip handler: it writes a new deadline and lays the old state over it, so that a deadline that is running wins.
const next = (state, now) => ({deadline: now + 200, slips: 0, ...state});
