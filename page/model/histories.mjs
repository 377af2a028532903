// Histories: what is true from one moment on, until the next one.
//
// A moment is an index into the steps that are shown: what is told of moment i is what holds after that step. Moment -1 stands before the first.

// How many of these rising numbers are at most `moment`.
export function countTo(rising, moment) {
  let low = 0;
  let high = rising.length;
  while (low < high) {
    const middle = (low + high) >> 1;
    if (rising[middle] <= moment) low = middle + 1;
    else high = middle;
  }
  return low;
}

export function newHistory(first) {
  return { at: [], states: [], first };
}

// Notes the state from this moment on. Moments don't fall; of two states at one moment the later one counts.
export function note(history, moment, state) {
  if (history.at[history.at.length - 1] === moment) {
    history.states[history.states.length - 1] = state;
  } else {
    history.at.push(moment);
    history.states.push(state);
  }
}

export function stateAt(history, moment) {
  const n = countTo(history.at, moment);
  return n === 0 ? history.first : history.states[n - 1];
}

// Since which moment the state has been what it is; -1 where it was so before the first step that is shown.
export function sinceAt(history, moment) {
  const n = countTo(history.at, moment);
  return n === 0 ? -1 : history.at[n - 1];
}
