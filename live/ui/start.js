/** The page that `wb-live` serves: the whiteboard over a member behind HTTP. */
import { openWhiteboard } from './whiteboard.js';
import { HttpMember } from './connection.js';
import { Inviting } from './inviting.js';

/** @type {(name: string) => string} */
const told = (name) => /** @type {HTMLMetaElement} */ (document.querySelector(`meta[name=wb-${name}]`)).content;

openWhiteboard(new HttpMember(told('token')));
new Inviting(told('address'));
