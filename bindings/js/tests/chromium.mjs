// A headless Chromium over its pipe (--remote-debugging-pipe): messages of its DevTools protocol, each
// ended by a zero byte.
import { spawn } from 'node:child_process';
import { once } from 'node:events';
import { mkdtempSync, rmSync } from 'node:fs';
import { tmpdir } from 'node:os';
import { join } from 'node:path';

const FLAGS = ['--headless=new', '--no-sandbox', '--disable-gpu', '--remote-debugging-pipe', '--no-first-run',
    '--disable-background-networking', '--disable-component-update', '--disable-dev-shm-usage'];

const pause = (milliseconds) => new Promise((go) => setTimeout(go, milliseconds));

/** A page of the browser. */
class Page {
    constructor(browser, session) {
        this.browser = browser;
        this.session = session;
    }

    call(method, params = {}) {
        return this.browser.call(method, params, this.session);
    }

    /** What an expression gives in the page, which may be a promise. */
    async value(expression) {
        const { result, exceptionDetails } = await this.call('Runtime.evaluate',
            { expression, awaitPromise: true, returnByValue: true });
        if (exceptionDetails) throw new Error(`${expression}: ${exceptionDetails.exception?.description}`);
        return result.value;
    }

    /** Waits for an expression to be true. */
    async until(expression, seconds = 60) {
        for (const end = Date.now() + 1000 * seconds; ; await pause(30)) {
            if (await this.value(expression).catch(() => false)) return;
            if (Date.now() > end) throw new Error(`never: ${expression}`);
        }
    }

    async open(url) {
        await this.call('Page.navigate', { url });
        await this.until('document.body?.dataset.ready');
    }

    /** Chooses files in an input. */
    async choose(selector, files) {
        const { root } = await this.call('DOM.getDocument');
        const { nodeId } = await this.call('DOM.querySelector', { nodeId: root.nodeId, selector });
        await this.call('DOM.setFileInputFiles', { nodeId, files });
    }

    /** Drops files onto an element. */
    async drop(selector, files) {
        const [x, y] = await this.value(`(() => { const it = document.querySelector('${selector}');
            it.scrollIntoView(); const box = it.getBoundingClientRect();
            return [box.x + box.width / 2, box.y + box.height / 2]; })()`);
        const data = { items: [], files, dragOperationsMask: 1 };
        for (const type of ['dragEnter', 'dragOver', 'drop']) {
            await this.call('Input.dispatchDragEvent', { type, x, y, data });
        }
    }

    async press(key, text) {
        const code = { key, code: key, windowsVirtualKeyCode: { Tab: 9, Enter: 13 }[key] };
        await this.call('Input.dispatchKeyEvent', { type: 'keyDown', ...code, text });
        await this.call('Input.dispatchKeyEvent', { type: 'keyUp', ...code });
    }
}

/** The browser, once it is started. */
export class Chromium {
    #waiting = new Map();
    #number = 0;
    /** What the browser tells by itself. */
    events = [];

    static async start(command) {
        const browser = new Chromium();
        browser.profile = mkdtempSync(join(tmpdir(), 'chromium-'));
        browser.child = spawn(command, [...FLAGS, `--user-data-dir=${browser.profile}`, 'about:blank'],
            { stdio: ['ignore', 'ignore', 'ignore', 'pipe', 'pipe'] });
        browser.#listen(browser.child.stdio[4]);
        browser.child.on('error', (error) => browser.#fail(error));
        browser.child.on('exit', () => browser.#fail(new Error('the browser ended')));
        browser.version = (await browser.call('Browser.getVersion')).product;
        return browser;
    }

    #listen(pipe) {
        let rest = '';
        pipe.setEncoding('utf8');
        pipe.on('data', (data) => {
            const parts = (rest + data).split('\0');
            rest = parts.pop();
            for (const part of parts) this.#take(JSON.parse(part));
        });
    }

    #take(message) {
        const waiting = this.#waiting.get(message.id);
        if (waiting === undefined) return this.events.push(message);
        this.#waiting.delete(message.id);
        if (message.error) waiting.fail(new Error(JSON.stringify(message.error)));
        else waiting.go(message.result);
    }

    #fail(error) {
        for (const { fail } of this.#waiting.values()) fail(error);
        this.#waiting.clear();
    }

    call(method, params = {}, sessionId = undefined) {
        return new Promise((go, fail) => {
            this.#waiting.set(++this.#number, { go, fail });
            this.child.stdio[3].write(`${JSON.stringify({ id: this.#number, method, params, sessionId })}\0`);
        });
    }

    /** A new page of a size. */
    async page(width = 900, height = 820) {
        const { targetId } = await this.call('Target.createTarget', { url: 'about:blank' });
        const { sessionId } = await this.call('Target.attachToTarget', { targetId, flatten: true });
        const page = new Page(this, sessionId);
        await page.call('Emulation.setDeviceMetricsOverride', { width, height, deviceScaleFactor: 1, mobile: false });
        for (const domain of ['Page', 'Runtime', 'Log', 'Network']) await page.call(`${domain}.enable`);
        return page;
    }

    async close() {
        const ended = once(this.child, 'exit');
        this.call('Browser.close').catch(() => {});
        await Promise.race([ended, pause(5000)]);
        if (this.child.exitCode === null) this.child.kill('SIGKILL');
        rmSync(this.profile, { recursive: true, force: true, maxRetries: 5 });
    }
}
