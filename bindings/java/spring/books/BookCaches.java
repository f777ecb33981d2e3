package books;

import java.util.Arrays;
import javax.cache.configuration.MutableConfiguration;
import org.springframework.cache.jcache.JCacheManagerFactoryBean;

/** The manager of the service's caches, which makes them. */
public final class BookCaches extends JCacheManagerFactoryBean {
    @Override
    public void afterPropertiesSet() {
        super.afterPropertiesSet();
        for (String name : Arrays.asList("titles", "summaries", "lists", "authors", "notes")) {
            getObject().createCache(name, new MutableConfiguration<>().setStatisticsEnabled(true));
        }
    }
}
