export * from './core';
export * from './sources';
export * from './piped';
