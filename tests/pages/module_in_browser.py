"""Puts inputs to all calls of the module in a browser, in a worker of causal_judge.html, and compares the answers with the native library's."""

import json

MOST_AT_ONCE, MOST_BYTES_AT_ONCE = 25, 1_000_000
# A worker with the code of the page's own, which answers calls instead of judging for the page. The bytes of an input are the characters
# of a text.
START = r"""(async () => {
  const answering = `onmessage = async ({data: {module, asked}}) => {
    try {
      judge ??= await instantiate(module);
      postMessage(asked.map(([call, text]) => {
        const {status, text: said} = judge.call(call, Uint8Array.from(text, it => it.charCodeAt(0)));
        return [status, said, judge.memory.taken];
      }));
    } catch (error) {
      postMessage(String(error));
    }
  };`;
  const code = new Blob([document.getElementById('worker').textContent, answering], {type: 'text/javascript'});
  const worker = new Worker(URL.createObjectURL(code)), module = await unpacked();
  window.answersTo = asked => new Promise((done, fail) => {
    worker.onmessage = ({data}) => done(data);
    worker.onerror = event => fail(new Error(event.message));
    worker.postMessage({module, asked});
  });
  return true;
})()"""


def batches(inputs):
    """The inputs in groups, each of few inputs and few bytes."""
    group, size = [], 0
    for call, data in inputs:
        if group and (len(group) == MOST_AT_ONCE or size + len(data) > MOST_BYTES_AT_ONCE):
            yield group
            group, size = [], 0
        group.append((call, data))
        size += len(data)
    if group:
        yield group


def cases(window, library, inputs):
    """Whether the module answers each input as the library does, and has given all memory back."""
    window.run(START)
    for group in batches(inputs):
        found = window.run(f"answersTo({json.dumps([(call, data.decode('latin-1')) for call, data in group])})")
        if not isinstance(found, list):
            yield f"calls {sorted({call for call, _ in group})}: {found!r:.300}", False
            continue
        for (call, data), (status, text, taken) in zip(group, found, strict=True):
            due = library.ask(call, data)
            is_same = (status, text.encode(), taken) == (*due, 0)
            yield f"{call} of {data!r:.200}: {status}, {text!r:.200}, {taken} bytes left, the library {due!r:.200}", is_same
