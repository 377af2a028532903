// Looking for steps.

export const SEARCHES = {
  trouble: (step) => ["busy", "lost", "waiting"].includes(step.answer),
  busy: (step) => step.answer === "busy",
  lost: (step) => step.answer === "lost",
  waiting: (step) => step.answer === "waiting",
  refused: (step) => step.label === "refused",
  label: (step) => step.label !== "",
  event: (step) => step.events.length > 0,
  enter: (step) => step.events.some((it) => it[0].startsWith("enter-")),
  write: (step) => step.written !== null,
};

// The nearest moment in this direction whose step passes the test, or -1.
export function find(replay, moment, direction, test) {
  for (let i = moment + direction; i >= 0 && i < replay.steps.length; i += direction) {
    if (test(replay.steps[i])) return i;
  }
  return -1;
}
