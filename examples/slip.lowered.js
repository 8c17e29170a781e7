// What slip.js becomes. ObjectSpread2 is Babel's helper objectSpread2, in helpers/helpers.js, which a loader runs first.
const next = (state, now) => (ObjectSpread2({deadline: now + 200, slips: 0}, state));
