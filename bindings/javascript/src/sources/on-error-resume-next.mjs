import { onErrorResumeNextWith } from '../operators/again.mjs';
import { EMPTY } from './simple.mjs';
import { flatList } from '../core/util.mjs';

export function onErrorResumeNext(...words) {
  return onErrorResumeNextWith(EMPTY, flatList(words));
}
