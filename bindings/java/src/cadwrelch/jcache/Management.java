package cadwrelch.jcache;

import java.lang.management.ManagementFactory;
import java.util.HashMap;
import java.util.Map;
import javax.cache.CacheException;
import javax.management.JMException;
import javax.management.MBeanServer;
import javax.management.ObjectName;

/** Registers the beans of caches with the platform's server, under the names of JSR 107, "Management". */
final class Management {
    /** Which cache has registered the bean of a name: names of different caches may be the same. */
    private static final Map<ObjectName, JcacheCache<?, ?>> OWNERS = new HashMap<>();

    private Management() {
    }

    static void showStatistics(JcacheCache<?, ?> cache, boolean isOn) {
        show(cache, nameOf(cache, "CacheStatistics"), isOn ? new StatisticsBean(cache) : null);
    }

    static void showConfiguration(JcacheCache<?, ?> cache, boolean isOn) {
        show(cache, nameOf(cache, "CacheConfiguration"), isOn ? new ConfigurationBean(cache) : null);
    }

    /** Registers a bean of an open cache, if none is registered; or, if it is null, takes the cache's own one out. */
    private static synchronized void show(JcacheCache<?, ?> cache, ObjectName name, Object bean) {
        MBeanServer server = ManagementFactory.getPlatformMBeanServer();
        try {
            boolean isRegistered = server.isRegistered(name);
            if (bean != null && !isRegistered && !cache.isClosed()) {
                server.registerMBean(bean, name);
                OWNERS.put(name, cache);
            } else if (bean == null && OWNERS.remove(name, cache) && isRegistered) {
                server.unregisterMBean(name);
            }
        } catch (JMException e) {
            throw new CacheException("the bean " + name + " can't be registered or taken out", e);
        }
    }

    private static ObjectName nameOf(JcacheCache<?, ?> cache, String type) {
        String manager = clean(cache.getCacheManager().getURI().toString());
        try {
            return new ObjectName(
                    "javax.cache:type=" + type + ",CacheManager=" + manager + ",Cache=" + clean(cache.getName()));
        } catch (JMException e) {
            throw new CacheException("there is no name for the beans of the cache " + cache.getName(), e);
        }
    }

    /** Without the characters that a name may not have. */
    private static String clean(String text) {
        return text.replaceAll("[,:=\n\"*?]", ".");
    }
}
