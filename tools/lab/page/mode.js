// The words of the script language, and a mode of them for CodeMirror.
const words = (text) => new Set(text.split(" "));
const DECLARED = words("version quantum thread handler cleanup mutex cond sem queue timer action");
const BLOCKS = words("if unless loop forever push pop end");
const STEPS = words("run set add take yield create join exit cancel testcancel setcancel setprio setsched lock timedlock trylock unlock wait timedwait "
  + "signal broadcast sem_wait sem_timedwait sem_trywait sem_getvalue sem_post nanosleep clock_nanosleep gettime clock_settime real_gettime "
  + "timer_settime timer_gettime timer_getoverrun kill tkill sigqueue sigmask sigwaitinfo sigtimedwait "
  + "mq_send mq_timedsend mq_receive mq_timedreceive mq_notify");
const OTHERS = words("fifo rr sporadic strict at dormant none inherit protect recursive nonblock ignore run rel abs real all reg enable disable block unblock "
  + "EAGAIN EBUSY EDEADLK EINTR EINVAL EMSGSIZE EOVERFLOW EPERM ESRCH ETIMEDOUT");

function styleOf(word, isFirst) {
  if (/^\d+$/.test(word)) return "number";
  if (isFirst) return DECLARED.has(word) ? "def" : BLOCKS.has(word) ? "keyword" : STEPS.has(word) ? "builtin" : null;
  return OTHERS.has(word) || /^rt\d+$/.test(word) ? "atom" : null;
}

export function defineMode(CodeMirror) {
  CodeMirror.defineMode("pse52", () => ({
    startState: () => ({ isFirst: true }),
    token(stream, state) {
      if (stream.sol()) state.isFirst = true;
      if (stream.eatSpace()) return null;
      if (stream.peek() === "#") { stream.skipToEnd(); return "comment"; }
      stream.match(/^[^\s#]+/);
      const style = styleOf(stream.current(), state.isFirst);
      state.isFirst = false;
      return style;
    },
    lineComment: "#",
  }));
}
