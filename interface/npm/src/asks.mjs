// What a certification request asks for, as its report in JSON has it (docs/report.schema.json of pkder's repository),
// and of that what most callers want. Not proved.

// The first of what a value says that is there, as characters.
function wordOf({text, value = {}}) {
    const said = [text, value.name, value.identifier, value.hexadecimal, value.integer, value.boolean];
    return String(said.find((it) => it !== undefined) ?? "");
}

class Asked {
    constructor(told) {
        Object.assign(this, told);
    }

    // This member of the extension, [] where it isn't there, and null where it can't be told: its value isn't in DER,
    // or it is there twice.
    #told(name, member) {
        const found = this.extensions.filter((it) => it.name === name);
        if (found.length === 0) return [];
        return found.length === 1 && found[0].carries?.verdict === "der" ? found[0][member] ?? [] : null;
    }

    get san() {
        return this.#told("subjectAltName", "names");
    }

    get dns() {
        return this.san?.filter((it) => it.dns !== undefined).map((it) => it.dns) ?? null;
    }

    get keyUsage() {
        return this.#told("keyUsage", "bits");
    }

    get extendedKeyUsage() {
        return this.#told("extKeyUsage", "values")?.map(wordOf) ?? null;
    }

    get isCa() {
        return this.#told("basicConstraints", "values")?.some((it) => it.field === "cA" && it.value?.boolean) ?? null;
    }
}

export function askedOf(told) {
    return new Asked(told);
}
