'use strict';
// A program that speaks the Language Server Protocol over its standard streams: JSON after a header with its length.
const { spawn } = require('child_process');

const HEADER_END = '\r\n\r\n';

class Connection {
  // `heard` is called with each notification of the program, and `ended` with why it has ended.
  constructor(command, heard, ended) {
    this.heard = heard;
    this.waiting = new Map();
    this.number = 0;
    this.came = Buffer.alloc(0);
    this.isOpen = true;
    this.process = spawn(command, [], { stdio: ['pipe', 'pipe', 'inherit'] });
    this.process.stdout.on('data', (data) => this.take(data));
    this.process.stdin.on('error', () => {});
    this.process.on('error', (fault) => this.end(fault.message, ended));
    this.process.on('exit', (status) => this.end(`it ended with ${status}`, ended));
  }

  take(data) {
    this.came = Buffer.concat([this.came, data]);
    for (;;) {
      const end = this.came.indexOf(HEADER_END);
      const length = end < 0 ? null : /content-length: *(\d+)/i.exec(this.came.toString('ascii', 0, end));
      const first = end + HEADER_END.length;
      if (!length || this.came.length < first + Number(length[1])) return;
      const body = this.came.toString('utf8', first, first + Number(length[1]));
      this.came = this.came.subarray(first + Number(length[1]));
      this.message(JSON.parse(body));
    }
  }

  message(message) {
    if (message.method) {
      this.heard(message.method, message.params);
      return;
    }
    const asked = this.waiting.get(message.id);
    this.waiting.delete(message.id);
    if (!asked) return;
    if (message.error) asked.reject(new Error(message.error.message));
    else asked.resolve(message.result);
  }

  send(message) {
    if (!this.isOpen) return;
    const body = Buffer.from(JSON.stringify({ jsonrpc: '2.0', ...message }));
    this.process.stdin.write(`Content-Length: ${body.length}${HEADER_END}`);
    this.process.stdin.write(body);
  }

  tell(method, params) {
    this.send({ method, params });
  }

  ask(method, params) {
    const id = ++this.number;
    return new Promise((resolve, reject) => {
      if (!this.isOpen) reject(new Error('the language server does not run'));
      this.waiting.set(id, { resolve, reject });
      this.send({ id, method, params });
    });
  }

  end(why, ended) {
    if (!this.isOpen) return;
    this.isOpen = false;
    for (const asked of this.waiting.values()) asked.reject(new Error(why));
    this.waiting.clear();
    ended(why);
  }

  async close() {
    if (!this.isOpen) return;
    await this.ask('shutdown', null).catch(() => {});
    this.tell('exit', null);
    this.isOpen = false;
  }
}

module.exports = { Connection };
