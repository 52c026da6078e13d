// The organisation whose channel this page shows: `?tenant=2`, or the first one.

const wanted = Number(new URLSearchParams(location.search).get("tenant") ?? 1);

/** The tenant's number. */
export const tenant = Number.isInteger(wanted) && wanted >= 1 && wanted <= 64 ? wanted : 1;

/** The address of one of the pages for this tenant. */
export const pageOf = (name) => `${name}?tenant=${tenant}`;
