// Chromium without a window, driven over its debugging pipe: pages, keys, clicks and pictures.
import { spawn } from "node:child_process";
import { mkdtempSync, rmSync, writeFileSync } from "node:fs";
import { tmpdir } from "node:os";
import { join } from "node:path";

export async function browser({ program = process.env.CHROMIUM ?? "chromium" } = {}) {
  const profile = mkdtempSync(join(tmpdir(), "chromium-"));
  const flags = ["--headless=new", "--no-sandbox", "--disable-gpu", "--disable-dev-shm-usage", "--no-first-run", "--hide-scrollbars",
    "--force-color-profile=srgb", `--user-data-dir=${profile}`, "--remote-debugging-pipe", "about:blank"];
  const child = spawn(program, flags, { stdio: ["ignore", "ignore", "ignore", "pipe", "pipe"] });
  const waiting = new Map(), listeners = [];
  let next = 1, rest = "";
  child.stdio[4].on("data", (data) => {
    const parts = (rest + data).split("\0");
    rest = parts.pop();
    for (const part of parts) {
      const { id, result, error, ...event } = JSON.parse(part);
      if (!id) for (const it of listeners) it(event);
      else if (error) waiting.get(id)?.fail(new Error(error.message));
      else waiting.get(id)?.done(result);
    }
  });
  const send = (method, params = {}, sessionId) => new Promise((done, fail) => {
    const id = next++;
    waiting.set(id, { done, fail });
    child.stdio[3].write(`${JSON.stringify({ id, method, params, sessionId })}\0`);
  });
  return {
    version: async () => (await send("Browser.getVersion")).product,
    page: async (url, size) => page(send, listeners, url, size),
    async close() {
      await send("Browser.close").catch(() => {});
      if (child.exitCode === null) await new Promise((done) => child.on("exit", done));
      rmSync(profile, { recursive: true, force: true, maxRetries: 5, retryDelay: 200 });
    },
  };
}

async function page(send, listeners, url, { width = 1200, height = 800, isDark = false } = {}) {
  const { targetId } = await send("Target.createTarget", { url: "about:blank" });
  const { sessionId } = await send("Target.attachToTarget", { targetId, flatten: true });
  const call = (method, params) => send(method, params, sessionId);
  const said = [];
  listeners.push((event) => {
    if (event.sessionId !== sessionId) return;
    if (event.method === "Runtime.exceptionThrown") said.push(event.params.exceptionDetails.exception?.description ?? event.params.exceptionDetails.text);
    if (event.method === "Log.entryAdded" && event.params.entry.level === "error") said.push(event.params.entry.text);
  });
  const resize = (width, height) => call("Emulation.setDeviceMetricsOverride", { width, height, deviceScaleFactor: 1, mobile: width < 600 });
  await call("Runtime.enable");
  await call("Log.enable");
  await call("Page.enable");
  await resize(width, height);
  await call("Emulation.setEmulatedMedia", { features: [{ name: "prefers-color-scheme", value: isDark ? "dark" : "light" }] });
  await call("Page.navigate", { url });

  /** What an expression of JavaScript gives in the page. */
  async function value(expression) {
    const { result, exceptionDetails } = await call("Runtime.evaluate", { expression, awaitPromise: true, returnByValue: true });
    if (exceptionDetails) throw new Error(exceptionDetails.exception?.description ?? exceptionDetails.text);
    return result.value;
  }

  /** Waits until an expression holds. */
  async function until(expression, seconds = 60) {
    const end = Date.now() + 1000 * seconds;
    for (;;) {
      const it = await value(expression).catch(() => undefined);
      if (it) return it;
      if (Date.now() > end) throw new Error(`it did not come to: ${expression}`);
      await new Promise((done) => setTimeout(done, 30));
    }
  }

  const KEYS = { Tab: 9, Enter: 13, Home: 36, End: 35, ArrowLeft: 37, ArrowUp: 38, ArrowRight: 39, ArrowDown: 40, Backspace: 8, F8: 119, "a": 65, "f": 70, ".": 190 };
  return {
    value, until, said, resize,
    size: resize,
    async click(selector, count = 1) {
      const at = await value(`(() => { const it = document.querySelector(${JSON.stringify(selector)}); it.scrollIntoView({ block: "center" });
        const box = it.getBoundingClientRect(); return [box.x + box.width / 2, box.y + box.height / 2]; })()`);
      await this.clickAt(...at, count);
    },
    async clickAt(x, y, count = 1) {
      for (const type of ["mouseMoved", "mousePressed", "mouseReleased"]) {
        await call("Input.dispatchMouseEvent", { type, x, y, button: type === "mouseMoved" ? "none" : "left", clickCount: count });
      }
    },
    async move(selector) {
      const [x, y] = await value(`(() => { const box = document.querySelector(${JSON.stringify(selector)}).getBoundingClientRect(); return [box.x + 40, box.y + box.height / 2]; })()`);
      await call("Input.dispatchMouseEvent", { type: "mouseMoved", x, y });
    },
    type: (text) => call("Input.insertText", { text }),
    /** Presses a key, with modifiers as of ["Control", "Shift"]. */
    async key(key, ...modifiers) {
      const bits = modifiers.reduce((sum, it) => sum + { Alt: 1, Control: 2, Meta: 4, Shift: 8 }[it], 0);
      for (const type of ["rawKeyDown", "keyUp"]) {
        await call("Input.dispatchKeyEvent", { type, key, code: key.length === 1 ? { a: "KeyA", f: "KeyF", ".": "Period" }[key] : key, windowsVirtualKeyCode: KEYS[key], modifiers: bits });
      }
    },
    async picture(file) {
      const { data } = await call("Page.captureScreenshot", { format: "png" });
      writeFileSync(file, Buffer.from(data, "base64"));
    },
    close: () => send("Target.closeTarget", { targetId }),
  };
}
