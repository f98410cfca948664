import { operator } from '../core/operator.mjs';

/** An operator that is another observable over its source; made as it is opened, so that `lift` is asked for it. */
export const lazily = (source, make) => operator((at, it) => make(it)._open(at))(source);
