// The bytes of a WebAssembly module, read and written in turn.

export class Reader {
    constructor(bytes, at = 0, end = bytes.length) {
        this.bytes = bytes;
        this.at = at;
        this.end = end;
    }
    get done() {
        return this.at >= this.end;
    }
    byte() {
        if (this.at >= this.end) throw new RangeError("the module ends too early");
        return this.bytes[this.at++];
    }
    // an unsigned LEB128 number; those that are read here fit into 53 bits
    number() {
        let value = 0;
        for (let scale = 1; ; scale *= 128) {
            const byte = this.byte();
            value += (byte & 127) * scale;
            if (byte < 128) return value;
        }
    }
    // a LEB128 number of either kind, which isn't looked at
    skipNumber() {
        while (this.byte() >= 128);
    }
    skip(count) {
        if (this.at + count > this.end) throw new RangeError("the module ends too early");
        this.at += count;
    }
    // a reader of the next `count` bytes alone, which this one passes over
    part(count) {
        const from = this.at;
        this.skip(count);
        return new Reader(this.bytes, from, this.at);
    }
    since(from) {
        return this.bytes.subarray(from, this.at);
    }
    rest() {
        return this.bytes.subarray(this.at, this.end);
    }
}

export class Writer {
    constructor(size = 64) {
        this.bytes = new Uint8Array(Math.ceil(size));
        this.at = 0;
    }
    room(count) {
        if (this.at + count <= this.bytes.length) return;
        const longer = new Uint8Array(2 * (this.at + count));
        longer.set(this.bytes.subarray(0, this.at));
        this.bytes = longer;
    }
    byte(value) {
        this.room(1);
        this.bytes[this.at++] = value;
    }
    number(value) {
        for (; value >= 128; value = Math.floor(value / 128)) this.byte((value % 128) + 128);
        this.byte(value);
    }
    copy(bytes) {
        this.room(bytes.length);
        this.bytes.set(bytes, this.at);
        this.at += bytes.length;
    }
    // puts a byte at a place before the end
    insert(place, value) {
        this.room(1);
        this.bytes.copyWithin(place + 1, place, this.at++);
        this.bytes[place] = value;
    }
    // a part of the module with its length before it
    sized(bytes) {
        this.number(bytes.length);
        this.copy(bytes);
    }
    made() {
        return this.bytes.subarray(0, this.at);
    }
}
