/**
 * Several instances with a cache each, before one database: each forgets what the others, or anybody else, have written,
 * since the database announces each change. {@link cadwrelch.fleet.Fleet} says what that promises.
 */
package cadwrelch.fleet;
