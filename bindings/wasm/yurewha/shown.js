// What others see of an object whose members are private: comparisons, structured clones, conversions to text, and Node's console.

const INSPECT = Symbol.for("nodejs.util.inspect.custom");

/** What makes some getters of a class own enumerable properties of an object, for comparisons and structured clones. */
export function showing(kind, names) {
    const getters = Object.getOwnPropertyDescriptors(kind.prototype);
    // Engines define a property faster if its description has no `set`.
    const shown = names.map((name) => [name, { get: getters[name].get, enumerable: true, configurable: true }]);
    return (object) => shown.forEach(([name, getter]) => Object.defineProperty(object, name, getter));
}

/**
 * Lets a conversion of an object of a class to text throw. It would be "[object Object]", which a Response or a Blob would take for data.
 * `use` says what to use.
 */
export function textless(kind, name, use) {
    const value = () => {
        throw new TypeError(`${name} has no conversion to text, so no Response, Blob or template takes it: use ${use}`);
    };
    Object.defineProperty(kind.prototype, "toString", { value, writable: true, configurable: true });
}

/** Lets Node's console show objects of a class as `tell` says. An object that can't be read any more is shown by its error. */
export function inspected(kind, name, tell) {
    const value = function (depth, options, inspect) {
        if (depth < 0) return `[${name}]`;
        try {
            return `${name}${tell(this, (told) => inspect(told, { ...options, depth }), options)}`;
        } catch (error) {
            return `${name} <${error.message}>`;
        }
    };
    Object.defineProperty(kind.prototype, INSPECT, { value, writable: true, configurable: true });
}
