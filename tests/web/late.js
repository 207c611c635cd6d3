// What comes late on a slow computer, in its order: frames, timers, and what workers say.
(() => {
  const most = MOST_MILLISECONDS, [later, frame] = [setTimeout, requestAnimationFrame];
  const pause = () => Math.random() < 0.05 ? most * Math.random() : 0;

  window.setTimeout = (act, time = 0, ...more) => later(act, time + pause(), ...more);

  const due = [];
  window.requestAnimationFrame = act => {
    const draw = time => due.splice(0).forEach(it => it(time));
    if (!due.length) later(() => frame(draw), pause());
    return due.push(act);
  };

  const Native = window.Worker;
  window.Worker = class extends Native {
    set onmessage(act) {
      let last = Promise.resolve();
      super.onmessage = event => {
        const time = pause(), before = last;
        last = before.then(() => time && new Promise(done => later(done, time)));
        last.then(() => act(event));
      };
    }
  };
})();
