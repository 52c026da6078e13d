// The page for recipients, custodians and administrators.
import { loginView } from "./office/login.js";
import { drawHeader } from "./shared/header.js";
import { begin, whenExpired } from "./shared/pages.js";
import { forget } from "./shared/session.js";
import { say } from "./shared/texts.js";

whenExpired(() => {
  forget();
  begin(() => loginView("session_over"));
});

drawHeader(say("office"));
begin(() => loginView());
