// In a checkout the page has this file; the package has it in this place.
export * from '../web/member/host.js';
