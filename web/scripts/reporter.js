// The page for reporters.
import { home } from "./reporter/home.js";
import { notice } from "./shared/dom.js";
import { drawHeader } from "./shared/header.js";
import { begin, whenExpired } from "./shared/pages.js";
import { forget } from "./shared/session.js";
import { say } from "./shared/texts.js";

whenExpired(() => {
  forget();
  begin(() => home(notice("bad", say("session_over"))));
});

drawHeader(say("reporting_channel"));
begin(() => home());
