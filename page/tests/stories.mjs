// What the pages of the stories say of their steps, by hand: labels, who does whose call, and where arrows come from; and what windows of them say.

export const STORIES = {
  spin: {
    labels: {},
    causes: { 2: 0, 7: 4, 15: 12 },
    at: [[4, "standing 1", "writer"], [9, "standing 1", "leaves"], [2, "card 0", "rank 1"], [16, "standing 0", "writer"]],
  },
  dmcs: {
    labels: {},
    causes: { 9: 4, 18: 13, 20: 0, 22: 21, 24: 23 },
    at: [[13, "queue all", "0 .. 1"], [20, "queue all", "0 .. 1"], [21, "queue all", "0 > 1"], [24, "queue all", "1"]],
  },
  alock: {
    labels: {},
    causes: { 11: 8, 12: 10, 33: 31, 35: 31 },
    at: [[21, "queue local", "0 > 1 .. 2"], [25, "queue local", "1 > 2"], [29, "queue local", "2"], [35, "queue remote", "3"]],
  },
  "alock-overtaken": {
    labels: {},
    causes: {},
    at: [[10, "queue remote", "5"], [30, "queue local", "0 > 1 > 2 > 3 > 4"], [33, "queue local", "1 > 2 > 3 > 4"],
      [38, "queue local", "1 > 2 > 3 > 4 > 0"], [53, "standing 3", "writer"], [72, "standing 5", "writer"]],
  },
  stopped: {
    labels: {},
    causes: { 17: 16 },
    at: [[8, "card 0", "rank 2"], [20, "card 0", "rank 2"], [17, "queue local", "1"]],
  },
  mcs: {
    labels: {},
    causes: { 41: 40, 51: 46 },
    at: [[19, "queue 0", "0 .. 1"], [35, "queue root", "0 .. 1"], [46, "queue root", "1"], [50, "queue 0", ""]],
  },
  rw: {
    labels: { 16: "refused", 25: "reset", 49: "mark" },
    causes: { 16: 6, 51: 49, 60: 57, 68: 65 },
    at: [[7, "standing 0", "reader"], [7, "standing 1", "reader"], [30, "more 0", "refused"], [33, "more 0", ""], [68, "standing 2", "writer"]],
  },
  seq: {
    labels: { 11: "get done", 15: "version odd", 16: "look lost", 28: "version even", 36: "get done" },
    causes: { 16: 15, 17: 15, 31: 28, 36: 28 },
    at: [[2, "standing 1", "looks"], [10, "standing 2", "looks"], [11, "standing 2", "out"], [36, "standing 1", "out"]],
    windows: [[[11, 12], 11, "standing 2", "out"], [[31, 32], 31, "standing 1", "looks"], [[36, 37], 36, "standing 1", "out"]],
  },
  combine: {
    labels: {
      5: "posts", 11: "posts", 17: "posts", 45: "its call is done", 58: "done for rank 1", 79: "done for rank 2",
      83: "collects", 95: "collects", 110: "collects",
    },
    causes: { 23: 17, 46: 5, 59: 11 },
    at: [[45, "serves", "0"], [46, "serves", "1"], [58, "serves", "1"], [59, "serves", "2"], [79, "serves", "2"], [80, "serves", "-1"],
      [57, "more 1", ""], [58, "more 1", "answered"], [79, "more 2", "answered"], [90, "more 1", ""]],
    windows: [[[46, 47], 46, "serves", "-2"], [[46, 48], 46, "serves", "1"]],
  },
};
