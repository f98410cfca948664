export * from './piped';
export * from './old';
