package cadwrelch.jcache;

import javax.cache.management.CacheMXBean;

/** The configuration of a cache, for management (JSR 107, "Management"). */
final class ConfigurationBean implements CacheMXBean {
    private final JcacheCache<?, ?> cache;

    ConfigurationBean(JcacheCache<?, ?> cache) {
        this.cache = cache;
    }

    @Override
    public String getKeyType() {
        return cache.configuration.getKeyType().getName();
    }

    @Override
    public String getValueType() {
        return cache.configuration.getValueType().getName();
    }

    @Override
    public boolean isReadThrough() {
        return cache.configuration.isReadThrough();
    }

    @Override
    public boolean isWriteThrough() {
        return cache.configuration.isWriteThrough();
    }

    @Override
    public boolean isStoreByValue() {
        return cache.configuration.isStoreByValue();
    }

    @Override
    public boolean isStatisticsEnabled() {
        return cache.hasStatistics();
    }

    @Override
    public boolean isManagementEnabled() {
        return cache.configuration.isManagementEnabled();
    }
}
